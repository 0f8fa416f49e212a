"""A scene as PNG, by matplotlib."""
from .problem import USAGE, Problem
from .scene import Circle, Path, Scene, Words

DOTS = 100


def write(scene: Scene, path: str, scale: float = 1.5) -> None:
    """Writes the scene to a file, with so many dots for a pixel."""
    try:
        from matplotlib.backends.backend_agg import FigureCanvasAgg
        from matplotlib.figure import Figure
    except ImportError as fault:
        raise Problem("PNG needs python3-matplotlib: run tools/setup, or write SVG", USAGE) from fault
    figure = Figure(figsize=(scene.width / DOTS, scene.height / DOTS), dpi=DOTS * scale)
    FigureCanvasAgg(figure)
    axes = figure.add_axes((0, 0, 1, 1))
    axes.set_xlim(0, scene.width)
    axes.set_ylim(scene.height, 0)
    axes.axis("off")
    for order, mark in enumerate(scene.marks):
        axes.add_artist(_artist(mark, order))
    figure.savefig(path, format="png", metadata={"Software": None})


def _artist(it: Path | Circle | Words, order: int):
    from matplotlib.patches import Circle as Disc
    from matplotlib.patches import PathPatch
    from matplotlib.text import Text
    if isinstance(it, Words):
        return Text(it.x, it.y, it.text.replace("$", r"\$"), fontsize=it.size * 72 / DOTS, color=it.colour, zorder=order)
    if isinstance(it, Circle):
        return Disc((it.x, it.y), it.radius, fill=False, edgecolor=it.stroke, linewidth=1.5, zorder=order)
    return PathPatch(_path(it), facecolor=it.fill or "none", edgecolor=it.stroke or "none", linewidth=it.width * 72 / DOTS,
                     alpha=it.opacity if it.opacity < 1 else None, zorder=order)


def _path(it: Path):
    from matplotlib.path import Path as Outline
    points, codes = [], []
    for run in it.runs:
        points += run + ([run[0]] if it.is_closed else [])
        codes += [Outline.MOVETO] + [Outline.LINETO] * (len(run) - 1) + ([Outline.CLOSEPOLY] if it.is_closed else [])
    return Outline(points, codes)
