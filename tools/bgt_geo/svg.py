"""A scene as SVG."""
from xml.sax.saxutils import escape, quoteattr

from .scene import Circle, Path, Scene, Words


def text_of(scene: Scene) -> str:
    """The whole SVG file."""
    size = f'width="{scene.width:.0f}" height="{scene.height:.0f}" viewBox="0 0 {scene.width:.0f} {scene.height:.0f}"'
    head = f'<svg xmlns="http://www.w3.org/2000/svg" {size} font-family="DejaVu Sans, Verdana, sans-serif">'
    return "\n".join([head, *(_mark(it) for it in scene.marks), "</svg>", ""])


def _mark(it: Path | Circle | Words) -> str:
    if isinstance(it, Words):
        return f'<text x="{it.x:.1f}" y="{it.y:.1f}" font-size="{it.size}" fill="{it.colour}">{escape(it.text)}</text>'
    if isinstance(it, Circle):
        return (f'<circle cx="{it.x:.1f}" cy="{it.y:.1f}" r="{it.radius:.1f}" fill="none" stroke="{it.stroke}" '
                'stroke-width="2"/>')
    return _path(it)


def _path(it: Path) -> str:
    runs = "".join("M" + "L".join(f"{x:.2f} {y:.2f}" for x, y in run) + ("Z" if it.is_closed else "") for run in it.runs)
    parts = [f'd="{runs}"', f'fill="{it.fill or "none"}"']
    if it.fill:
        parts.append('fill-rule="evenodd"')
    if it.stroke:
        parts.append(f'stroke="{it.stroke}" stroke-width="{it.width}" stroke-linejoin="round"')
    if it.opacity < 1:
        parts.append(f'opacity="{it.opacity}"')
    if not it.title:
        return f'<path {" ".join(parts)}/>'
    return f'<path {" ".join(parts)} aria-label={quoteattr(it.title)}><title>{escape(it.title)}</title></path>'
