"""The shapes of a sequence diagram, in SVG."""

import re
from html import escape

STYLE = """
text { font: 11px ui-monospace, "DejaVu Sans Mono", monospace; fill: #333; paint-order: stroke; stroke: #fff; stroke-width: 3px }
text.number { fill: #aaa } text.name { font-weight: bold; stroke: none } text.kind { font-size: 9px; fill: #777; stroke: none } text.make { fill: #777 }
line { stroke: #333; stroke-width: 1.4 } line.life { stroke: #444; stroke-width: 1 }
line.channel { stroke: #b8a56a; stroke-width: 1; stroke-dasharray: 3 3 } line.closed { stroke: #e3dcc4; stroke-width: 1; stroke-dasharray: 3 3 }
rect.task { fill: #eef4ff; stroke: #6b7fa8 } rect.port { fill: #fff8e6; stroke: #b8a56a }
rect.waits { fill: #ddd; stroke: #bbb } rect.holds { fill: #f3d27a; stroke: #c9a23a }
line.value { stroke: #1b6ca8 } text.value { fill: #1b6ca8 } line.none { stroke: #777; stroke-dasharray: 2 3 } text.none { fill: #777 }
line.make, line.tick { stroke: #999; stroke-dasharray: 4 3 } line.spawn { stroke: #2a8a4a; stroke-dasharray: 4 3 } text.spawn { fill: #2a8a4a }
line.post { stroke: #1b6ca8; stroke-dasharray: 4 3 } text.post { fill: #1b6ca8 }
line.close, line.refused { stroke: #c0392b; stroke-dasharray: 4 3 } text.close, text.refused, text.fault { fill: #c0392b }
circle { fill: #333 } path.over { stroke: #333; stroke-width: 1.6 } path.fault { stroke: #c0392b; stroke-width: 2.2 }
""".strip()

CHARACTER = 6.7
"""The width of a character, in pixels."""

UNPRINTABLE = re.compile("[\x00-\x1f\x7f-\x9f\ud800-\udfff\ufffe\uffff]")


def shown(text: str, limit: int) -> str:
    """The text cut to so many characters, on one line, and without those that XML can't hold."""
    text = UNPRINTABLE.sub("\ufffd", text.replace("\n", "↵"))
    return text if len(text) <= limit else text[: limit - 1] + "…"


def text(x: float, y: float, content: str, kind: str, anchor: str = "start") -> str:
    place = "" if anchor == "start" else f' text-anchor="{anchor}"'
    return f'<text class="{kind}" x="{x:g}" y="{y:g}"{place}>{escape(content)}</text>'


def line(x1: float, y1: float, x2: float, y2: float, kind: str) -> str:
    return f'<line class="{kind}" x1="{x1:g}" y1="{y1:g}" x2="{x2:g}" y2="{y2:g}"/>'


def bar(x: float, top: float, bottom: float, width: float, kind: str) -> str:
    return f'<rect class="{kind}" x="{x - width / 2:g}" y="{top:g}" width="{width:g}" height="{bottom - top:g}"/>'


def box(x: float, y: float, name: str, what: str, kind: str) -> list[str]:
    """The head of a column, around its place."""
    corner = 4 if kind == "task" else 14
    shape = f'<rect class="{kind}" x="{x - 52:g}" y="{y - 15:g}" width="104" height="30" rx="{corner}"/>'
    return [shape, text(x, y - 2, name, "name", "middle"), text(x, y + 10, what, "kind", "middle")]


def cross(x: float, y: float, kind: str) -> str:
    return f'<path class="{kind}" d="M{x - 5:g} {y - 5:g}l10 10m0 -10l-10 10"/>'


def dot(x: float, y: float) -> str:
    return f'<circle cx="{x:g}" cy="{y:g}" r="3"/>'


def arrow(start: float, end: float, y: float, label: str, kind: str, gap: float = 6) -> list[str]:
    """An arrow along a row, which ends `gap` before its column; its label stands over its middle, cut to its length."""
    way = 1 if end > start else -1
    tip = end - way * gap
    head = f'<path class="{kind}" d="M{tip:g} {y:g}l{-7 * way} -3.5v7z" fill="#555"/>'
    name = shown(label, max(12, int(abs(end - start) / CHARACTER) - 2))
    return [line(start + way * 5, y, tip - way * 4, y, kind), head, text((start + tip) / 2, y - 4, name, kind, "middle")]


def document(width: float, height: float, shapes: list[str]) -> str:
    head = f'<svg xmlns="http://www.w3.org/2000/svg" width="{width:g}" height="{height:g}" viewBox="0 0 {width:g} {height:g}">'
    ground = f'<rect width="{width:g}" height="{height:g}" fill="#fff"/>'
    return "\n".join([head, f"<style>\n{STYLE}\n</style>", ground, *shapes, "</svg>"]) + "\n"
