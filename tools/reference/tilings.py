"""Random ground maps of several holders, and the messages that carry a register from one map to the next.

A world is a set of cells (an outer ring and holes), each owned by one holder or by nobody. Parts are sets of
cells. Edits change cells and parts; `message` writes the difference to what the register holds.
"""
import copy
from dataclasses import dataclass, field, replace

import reference as ref
from reference import Item, Message, Mutation, ring_edges


GRID = 65_536  # millimetres; a size of cells that an index may have, so that borders fall together with it


def twice_area(ring):
    return sum(a[0] * b[1] - a[1] * b[0] for a, b in ring_edges(ring))


def normal(shape):
    """The same for all ways to write one shape."""
    rings = [min(tuple(r[k:] + r[:k]) for k in range(len(r))) for r in shape]
    return (rings[0],) + tuple(sorted(rings[1:]))


def close(next_of):
    """Cuts a set of directed edges into rings whose points are all different."""
    rings = []
    while next_of:
        path = [next(iter(next_of))]
        while True:
            ends = next_of[path[-1]]
            p = ends.pop()
            if not ends:
                del next_of[path[-1]]
            if p in path:
                k = path.index(p)
                rings.append(tuple(path[k:]))
                path = path[:k + 1]
                if p not in next_of:
                    break
            else:
                path.append(p)
    return rings


def outline(shapes):
    """The shapes of the union of cells that meet edge to edge."""
    edges = {e for s in shapes for r in s for e in ring_edges(r)}
    next_of = {}
    for a, b in sorted(edges):
        if (b, a) not in edges:
            next_of.setdefault(a, []).append(b)
    rings = close(next_of)
    outers = sorted((r for r in rings if twice_area(r) > 0), key=twice_area)
    shapes = [[r] for r in outers]
    for hole in (r for r in rings if twice_area(r) <= 0):
        for shape in shapes:
            free = [p for p in hole if not any(ref.on_edge(p, e) for e in ring_edges(shape[0]))]
            if all(ref.lies_in(p, (shape[0],)) for p in free) and twice_area(shape[0]) > -twice_area(hole):
                shape.append(hole)
                break
    return [tuple(s) for s in shapes]


@dataclass
class Part:
    holder: str
    ident: str
    kind: str
    codes: tuple
    begin: int
    level: int = 0
    cells: set = field(default_factory=set)
    rings: tuple = None  # of objects that are not made of cells


def random_codes(rng, kind):
    codes = [(a, rng.choice(ref.CATALOGUE[kind][a])) for a in ref.ATTRIBUTES[:3] if a in ref.CATALOGUE[kind]]
    if kind == "pand" and rng.random() < 0.5:
        codes.append(("bagpnd", "%016d" % rng.randrange(10 ** 16)))
    return tuple(codes)


class World:
    def __init__(self, rng):
        self.rng = rng
        self.holders = rng.sample(["G0001", "G0002", "G0003", "A9999", "Z0000"], rng.choice([1, 1, 2, 2, 3]))
        self.day = ref.read_day(rng.choice(["2024-01-01"] * 6 + ["0000-01-01", "1969-12-30", "1999-12-31", "2000-02-28",
                                                                 "2100-02-28", "9990-12-31"]))
        self.clock = self.day * ref.DAY_MS + rng.choice([0, 1000, 999, 43_200_000, 86_399_999])
        self.cells, self.owner, self.parts = {}, {}, []
        self.numbers = 0
        self.lattice()

    # ------------------------------------------------------------ making

    def lattice(self):
        rng = self.rng
        nx, ny = rng.randint(1, 4), rng.randint(1, 4)
        step = rng.choice([6, 1000, 10_000, 10_000, 70_000, 3_000_000, GRID, 2 * GRID, 7 * GRID, 8 * GRID, GRID // 2])
        x0 = rng.choice([100_000_000] * 4 + [ref.X_RANGE[0], ref.X_RANGE[1] - nx * step, -step, -GRID, 0, 1526 * GRID])
        y0 = rng.choice([400_000_000] * 4 + [ref.Y_RANGE[0], ref.Y_RANGE[1] - ny * step, 6103 * GRID])
        wobble = rng.choice([0, 0, 1, step // 6, step // 5])
        self.step = step

        def corner(i, j):
            dx = rng.randint(-wobble, wobble) if 0 < i < nx else 0
            dy = rng.randint(-wobble, wobble) if 0 < j < ny else 0
            return x0 + i * step + dx, y0 + j * step + dy

        corners = {(i, j): corner(i, j) for i in range(nx + 1) for j in range(ny + 1)}
        columns = sorted(rng.choice(self.holders) for _ in range(nx))
        for i in range(nx):
            for j in range(ny):
                ring = tuple(corners[c] for c in ((i, j), (i + 1, j), (i + 1, j + 1), (i, j + 1)))
                owner = columns[i] if rng.random() < 0.8 else rng.choice(self.holders + [None])
                self.new_part(owner, self.new_cell((ring,), owner))

    def new_cell(self, shape, owner):
        self.numbers += 1
        self.cells[self.numbers], self.owner[self.numbers] = tuple(shape), owner
        return self.numbers

    def fresh_ident(self, holder):
        self.numbers += 1
        text = "%032d" % self.numbers
        if self.rng.random() < 0.2:
            text = "".join(self.rng.choice("09azAZbY") for _ in range(28)) + text[-4:]
        return holder + "." + text

    def new_part(self, owner, *cells, kind=None):
        if owner is None:
            return None
        kind = kind or self.rng.choice(ref.KINDS[:11])
        begin = self.clock // ref.DAY_MS - self.rng.choice([0, 0, 1, 30])
        begin = max(begin, ref.read_day("0000-01-01"))
        part = Part(owner, self.fresh_ident(owner), kind, random_codes(self.rng, kind), begin, cells=set(cells))
        self.parts.append(part)
        return part

    # ------------------------------------------------------------ looking

    def shape(self, part):
        """The one shape of a part, or None where its cells make none."""
        if part.rings:
            return part.rings
        shapes = outline([self.cells[c] for c in part.cells])
        return shapes[0] if len(shapes) == 1 and ref.shape_note(shapes[0]) is None else None

    def area(self, holder):
        return tuple(outline([s for c, s in self.cells.items() if self.owner[c] == holder]))

    def mine(self, holder):
        return [p for p in self.parts if p.holder == holder]

    def ground(self, holder):
        return [p for p in self.mine(holder) if p.cells]

    def plain_cells(self, holder):
        return [c for c, s in self.cells.items() if self.owner[c] == holder and len(s) == 1]

    def part_of(self, cell):
        return next(p for p in self.parts if cell in p.cells)

    # ------------------------------------------------------------ editing

    def edit(self, holder):
        """One random edit for a holder; False where it could not be made."""
        kinds = [self.merge, self.merge, self.split, self.cut, self.fan, self.new_vertex, self.new_vertex, self.building,
                 self.give, self.take, self.recode, self.move_vertex, self.level_object, self.drop_level_object]
        before = copy.copy(self.cells), copy.copy(self.owner), copy.deepcopy(self.parts)
        done = self.rng.choice(kinds)(holder)
        if done and all(self.shape(p) for p in self.mine(holder)) and len(self.parts) <= 30:
            return True
        self.cells, self.owner, self.parts = before
        return False

    def pick(self, things):
        return self.rng.choice(things) if things else None

    def merge(self, holder):
        parts = self.ground(holder)
        if len(parts) < 2:
            return False
        one, two = self.rng.sample(parts, 2)
        one.cells |= two.cells
        self.parts.remove(two)
        return True

    def split(self, holder):
        part = self.pick([p for p in self.ground(holder) if len(p.cells) > 1])
        if not part:
            return False
        cells = sorted(part.cells)
        self.rng.shuffle(cells)
        some = set(cells[:self.rng.randint(1, len(cells) - 1)])
        part.cells -= some
        self.new_part(holder, *some)
        return True

    def replace_cell(self, cell, shapes):
        """A cell gives way to others, which may make parts of their own."""
        part, owner = self.part_of(cell), self.owner[cell]
        if any(ref.shape_note(tuple(s)) for s in shapes):
            return False
        area = lambda s: sum(twice_area(r) for r in s)
        if sum(area(s) for s in shapes) != area(self.cells[cell]):
            return False
        part.cells.discard(cell)
        del self.cells[cell], self.owner[cell]
        for k, s in enumerate(shapes):
            new = self.new_cell(s, owner)
            if k == 0 or self.rng.random() < 0.2:
                part.cells.add(new)
            else:
                self.new_part(owner, new)
        return True

    def cut(self, holder):
        cell = self.pick(self.plain_cells(holder))
        ring = self.cells[cell][0] if cell else ()
        if len(ring) < 4:
            return False
        i, j = sorted(self.rng.sample(range(len(ring)), 2))
        if j - i < 2 or j - i == len(ring) - 1:
            return False
        return self.replace_cell(cell, [(ring[i:j + 1],), (ring[j:] + ring[:i + 1],)])

    def inner_point(self, ring):
        weights = [self.rng.randint(1, 5) for _ in ring]
        return tuple(sum(w * p[k] for w, p in zip(weights, ring)) // sum(weights) for k in (0, 1))

    def fan(self, holder):
        cell = self.pick(self.plain_cells(holder))
        ring = self.cells[cell][0] if cell else ()
        if not 3 <= len(ring) <= 6:
            return False
        p = self.inner_point(ring)
        return self.replace_cell(cell, [((a, b, p),) for a, b in ring_edges(ring)])

    def swap_edge(self, holder, edge, points):
        """Puts points into an edge of all cells of the holder that have it."""
        a, b = edge
        for c in self.cells:
            if self.owner[c] != holder:
                continue
            new = []
            for ring in self.cells[c]:
                out = []
                for e in ring_edges(ring):
                    out.append(e[0])
                    if e == (a, b):
                        out += points
                    elif e == (b, a):
                        out += points[::-1]
                new.append(tuple(out))
            if ref.shape_note(tuple(new)):
                return False
            self.cells[c] = tuple(new)
        return True

    def new_vertex(self, holder):
        cell = self.pick([c for c in self.cells if self.owner[c] == holder])
        if not cell:
            return False
        edges = ring_edges(self.rng.choice(self.cells[cell]))
        a, b = self.rng.choice(edges)
        k, n = self.rng.choice([(1, 2), (1, 3), (1, 4), (2, 3), (1, 5)])
        p = a[0] + (b[0] - a[0]) * k // n, a[1] + (b[1] - a[1]) * k // n
        if self.rng.random() < 0.4:
            far = self.rng.choice([1, self.step // 10])
            p = p[0] + self.rng.choice([-far, 0, far]), p[1] + self.rng.choice([-far, 0, far])
        return p not in (a, b) and self.swap_edge(holder, (a, b), [p])

    def move_vertex(self, holder):
        cell = self.pick([c for c in self.cells if self.owner[c] == holder])
        if not cell:
            return False
        p = self.rng.choice(self.rng.choice(self.cells[cell]))
        far = self.rng.choice([1, self.step // 8])
        q = p[0] + self.rng.randint(-far, far), p[1] + self.rng.randint(-far, far)
        for c in self.cells:
            if self.owner[c] == holder:
                shape = tuple(tuple(q if r == p else r for r in ring) for ring in self.cells[c])
                if ref.shape_note(shape):
                    return False
                self.cells[c] = shape
        return True

    def building(self, holder):
        cell = self.pick(self.plain_cells(holder))
        if not cell:
            return False
        ring = self.cells[cell][0]
        x, y = self.inner_point(ring)
        w, h = (max(1, self.step // self.rng.choice([8, 10, 30])) for _ in "xy")
        house = self.rng.choice([((x, y), (x + w, y), (x + w, y + h), (x, y + h)), ((x, y), (x + w, y + 1), (x, y + h)),
                                 ((x, y), (x + w, y), self.rng.choice(ring))])
        if twice_area(house) < 0:
            house = house[::-1]
        part = self.part_of(cell)
        yard = (ring, house[::-1])
        if ref.shape_note(yard) or ref.shape_note((house,)):
            return False
        self.cells[cell] = yard
        new = self.new_cell((house,), holder)
        self.new_part(holder, new, kind=self.rng.choice(["pand", "pand", "overig_bouwwerk"]))
        return part is not None

    def give(self, holder):
        cell = self.pick([c for c in self.cells if self.owner[c] == holder])
        if not cell:
            return False
        part = self.part_of(cell)
        part.cells.discard(cell)
        if not part.cells:
            self.parts.remove(part)
        self.owner[cell] = None
        return True

    def take(self, holder):
        cell = self.pick([c for c in self.cells if self.owner[c] is None])
        if not cell:
            return False
        self.owner[cell] = holder
        if self.ground(holder) and self.rng.random() < 0.3:
            self.rng.choice(self.ground(holder)).cells.add(cell)
        else:
            self.new_part(holder, cell)
        return True

    def recode(self, holder):
        part = self.pick(self.mine(holder))
        if part:
            part.codes = random_codes(self.rng, part.kind)
        return bool(part)

    def level_object(self, holder):
        kind = self.rng.choice(ref.KINDS[:6] + ref.KINDS)
        part = self.new_part(holder, kind=kind)
        cell = self.cells[self.rng.choice(list(self.cells))]
        x, y = self.inner_point(cell[0])
        s = self.rng.choice([2, self.step // 3, self.step])
        ring = self.rng.choice([((x, y), (x + s, y), (x + s, y + s), (x, y + s)), ((x, y), (x + s, y + 1), (x + 1, y + s)),
                                cell[0]])
        bounded = all(ref.X_RANGE[0] <= p[0] <= ref.X_RANGE[1] and ref.Y_RANGE[0] <= p[1] <= ref.Y_RANGE[1] for p in ring)
        part.level = self.rng.choice([1, 1, 1, 1, 2, -1, -1, 99, -99])
        if kind not in ref.DIVIDING and self.rng.random() < 0.4:
            part.level = 0
        part.rings = (ring,)
        return bounded

    def drop_level_object(self, holder):
        part = self.pick([p for p in self.mine(holder) if p.rings])
        if part:
            self.parts.remove(part)
        return bool(part)

    # ------------------------------------------------------------ writing

    def turn(self, shape):
        """The same shape with its rings begun elsewhere."""
        def begin(ring):
            k = self.rng.choice([0, self.rng.randrange(len(ring))])
            return tuple(ring[k:] + ring[:k])
        return tuple(begin(r) for r in shape)

    def item(self, part):
        return Item(part.kind, part.level, part.begin, part.codes, self.turn(self.shape(part)))

    def same_item(self, one, two):
        return replace(one, rings=normal(one.rings)) == replace(two, rings=normal(two.rings))

    def message(self, holder, state):
        """What brings the register's map of a holder to the world's."""
        rng, moment = self.rng, self.clock
        today, mutations, kept = moment // ref.DAY_MS, [], set()
        for part in self.mine(holder):
            now = state.current(part.ident)
            if now and now.item.kind != part.kind or not now and state.of_ident(part.ident):
                part.ident, now = self.fresh_ident(holder), None
            kept.add(part.ident)
            item = self.item(part)
            if now is None:
                mutations.append(Mutation("T", part.ident, item=item))
            elif not self.same_item(item, now.item) or rng.random() < 0.03:
                mutations.append(Mutation("W", part.ident, now.since, item))
        for v in state.objects(holder):
            if v.ident not in kept:
                mutations.append(Mutation("V", v.ident, v.since, day=rng.randint(v.item.begin, today)
                                          if v.item.begin <= today else today))
        rng.shuffle(mutations)
        area = self.area(holder)
        if sorted(map(normal, area)) == sorted(map(normal, state.area(holder))) and rng.random() < 0.9:
            return Message(holder, moment, None, tuple(mutations))
        area = list(map(self.turn, area))
        rng.shuffle(area)
        return Message(holder, moment, tuple(area), tuple(mutations))

    def tick(self, holder, state):
        """A moment for the holder's next message; now and then the same moment as another holder's last."""
        last = state.last.get(holder)
        latest = max([a.since for a in state.areas], default=None)
        if latest is not None and (last is None or last < latest) and self.rng.random() < 0.4:
            return latest
        self.clock += self.rng.choice([1, 5, 500, 999, 1000, 1000, 1000, 60_000, 3_600_000, ref.DAY_MS, 31 * ref.DAY_MS])
        return self.clock
