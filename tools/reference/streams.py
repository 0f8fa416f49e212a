"""Random streams of messages: ground maps that change (`tiling_stream`), and small dense geometry (`soup_stream`)."""
import copy

import reference as ref
import slips
from reference import Item, Message, Mutation
from tilings import GRID, World, random_codes, twice_area


class Follower:
    """The reference's state after the whole texts so far."""

    def __init__(self):
        self.state, self.rest, self.data = ref.State(), b"", b""

    def feed(self, piece):
        """True where the last text that the piece completed was accepted."""
        self.data += piece
        texts, self.rest = ref.cut_texts(self.rest + piece)
        good = False
        for text in texts:
            message = ref.read_text(text, ref.STANDARD)
            refusal, self.state = (message, self.state) if isinstance(message, str) else \
                ref.step(ref.STANDARD, self.state, message)
            good = refusal is None
        return good


def send(rng, follower, message, rough):
    text = slips.write(rng, message, rng.random() < 0.5)
    if rng.random() < rough:
        text = slips.smear(rng, text)
    return follower.feed(text)


def tiling_stream(rng, count):
    world, follower = World(rng), Follower()
    wild, rough = rng.choice([(0, 0), (0.4, 0.1), (0.7, 0.03), (0.9, 0), (0.2, 0.4)])
    todo = list(world.holders)
    for _ in range(count):
        holder = todo.pop(0) if todo else rng.choice(world.holders)
        before = copy.deepcopy((world.cells, world.owner, world.parts))
        if not todo:
            for _ in range(rng.choice([0, 1, 1, 2, 4])):
                world.edit(holder)
        world.tick(holder, follower.state)
        message = world.message(holder, follower.state)
        moment = world.tick(holder, follower.state) if rng.random() < 0.2 else world.clock
        message = ref.replace(message, moment=moment)
        if rng.random() < wild:
            message = slips.spoil(rng, message, follower.state, world)
        if not send(rng, follower, message, rough):
            world.cells, world.owner, world.parts = before
            if rng.random() < 0.5:
                world.tick(holder, follower.state)
                send(rng, follower, world.message(holder, follower.state), 0)
    return follower.data


# ---------------------------------------------------------------- soup


class Soup:
    """Shapes with corners on a small lattice, so that everything touches; or in the far ends of the plane."""

    def __init__(self, rng):
        self.rng = rng
        n, unit = rng.choice([3, 4, 5, 8]), rng.choice([1, 1, 2, 1000, 7001, GRID])
        if rng.random() < 0.25:
            far = lambda low, high: [low, low + 1, high - 1, high, (low + high) // 2, rng.randint(low, high)]
            self.xs, self.ys = far(*ref.X_RANGE), far(*ref.Y_RANGE)
        else:
            x0, y0 = rng.choice([(100_000_000, 400_000_000), (-2 * unit, 6103 * GRID), (1526 * GRID, 400_000_000)])
            self.xs = [x0 + unit * k for k in range(n)]
            self.ys = [y0 + unit * k for k in range(n)]

    def point(self):
        return self.rng.choice(self.xs), self.rng.choice(self.ys)

    def ring(self, sign=1):
        """A ring; most are simple and turn as asked."""
        for _ in range(self.rng.choice([1, 40, 40, 40, 40])):
            ring = tuple(self.point() for _ in range(self.rng.choice([3, 3, 4, 4, 5, 6, 8])))
            if ref.ring_note(0, ring) is None:
                return ring if twice_area(ring) * sign > 0 or self.rng.random() < 0.05 else ring[::-1]
        return ring

    def shape(self):
        """An outer ring with holes; most are sound."""
        holes = self.rng.choice([0, 0, 0, 1, 1, 2])
        shape = (self.ring(),)
        for _ in range(self.rng.choice([1, 20, 60])):
            shape = (self.ring(),) + tuple(self.ring(-1) for _ in range(holes))
            if ref.shape_note(shape) is None:
                break
        return shape

    def shapes(self, count):
        """Several shapes; most go together as one area."""
        shapes = [self.shape()]
        for _ in range(40):
            s = self.shape()
            if len(shapes) < count and (self.rng.random() < 0.08 or ref.shape_note(s) is None and all(
                    ref.shape_note(t) is None and ref.own_pair_sound(s, t) for t in shapes)):
                shapes.append(s)
        return tuple(shapes)


def split_ring(rng, shape):
    """A ring cut in two along a diagonal, where that goes."""
    ring = shape[0]
    if len(shape) > 1 or len(ring) < 4:
        return [shape]
    i = rng.randrange(len(ring))
    ring = ring[i:] + ring[:i]
    one, two = (ring[:3],), (ring[2:] + ring[:1],)
    ok = not ref.shape_note(one) and not ref.shape_note(two) and twice_area(one[0]) + twice_area(two[0]) == twice_area(ring)
    return [one, two] if ok else [shape]


def soup_stream(rng, count):
    soup, follower = Soup(rng), Follower()
    holders = rng.sample(["G0001", "G0002", "H0001"], rng.choice([1, 2, 3]))
    day, number = ref.read_day("2024-01-01"), 0
    clock = day * ref.DAY_MS
    rough = rng.choice([0, 0, 0.1])
    for _ in range(count):
        holder = rng.choice(holders)
        clock += rng.choice([0, 1, 1000, 1000])
        state, mutations, area = follower.state, [], None
        how = rng.choice(["area", "area", "area", "level", "level", "hole"])
        if how == "level":
            for _ in range(rng.randint(1, 3)):
                number += 1
                kind = rng.choice(ref.KINDS[:6] * 3 + ref.KINDS)
                item = Item(kind, rng.choice([1, 1, -1]), day, random_codes(rng, kind), soup.shape())
                mutations.append(Mutation("T", holder + ".%032d" % number, item=item))
            for v in rng.sample(state.objects(holder), min(len(state.objects(holder)), rng.choice([0, 0, 1, 2]))):
                if v.item.level:
                    mutations.insert(rng.randint(0, len(mutations)), rng.choice([
                        Mutation("V", v.ident, v.since, day=day),
                        Mutation("W", v.ident, v.since, ref.replace(v.item, rings=soup.shape()))]))
        else:
            area = soup.shapes(rng.choice([1, 1, 2, 3]))
            for v in state.objects(holder):
                if v.item.ground():
                    mutations.append(Mutation("V", v.ident, v.since, day=day))
            parts = [p for s in area for p in (split_ring(rng, s) if rng.random() < 0.7 else [s])]
            if how == "hole":
                parts += [(r[::-1],) for s in area for r in s[1:]]
                area = tuple(s[:1] for s in area)
            if rng.random() < 0.3:
                parts[rng.randrange(len(parts))] = soup.shape()
            for s in parts:
                number += 1
                kind = rng.choice(ref.KINDS[:11])
                item = Item(kind, 0, day, random_codes(rng, kind), s)
                mutations.append(Mutation("T", holder + ".%032d" % number, item=item))
        send(rng, follower, Message(holder, clock, area, tuple(mutations)), rough)
    return follower.data


# ---------------------------------------------------------------- whole inputs


def stream(rng):
    """One input: a stream, its tail, and now and then a cut or a changed byte anywhere."""
    make = rng.choice([tiling_stream, tiling_stream, tiling_stream, soup_stream])
    data = make(rng, rng.choice([3, 6, 10, 16]))
    if rng.random() < 0.15:
        data += rng.choice([b"\n", b"EIND", b"EINDE", b"X\n", b"BERICHT G0001 2024", b"\n\nEINDE\n", b"\xff", b"EINDE\r\n",
                            b" EINDE\n"])
    if rng.random() < 0.1:
        data = data[:rng.randint(0, len(data))]
    if data and rng.random() < 0.1:
        k = rng.randrange(len(data))
        data = rng.choice([data[:k] + bytes([rng.randrange(256)]) + data[k + 1:], data[k:], data[:k] + data[k + 1:],
                           data[:k] + b"\n" + data[k:]])
    return data
