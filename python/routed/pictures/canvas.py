"""A picture's size and colors, where routers are in it, and its legend."""
from __future__ import annotations

import collections
import math
from collections.abc import Callable, Iterable
from xml.sax.saxutils import escape

from .labels import ASCENT, FONT, SMALL, TEXT, Box, base_of, wrapped
from .layout import Places, bounds, near_pairs

AREA = 22_000  # square pixels for each router
NARROWEST, WIDEST, MARGIN_ASIDE, MARGIN = 720, 1200, 90, 45  # pixels; a browser shows the widest picture as it is, on most screens
LEAST_GAP = 26  # pixels between the middles of two routers
CLOSEST = 0.6  # how far apart two routers are at least, in the mean distance of a network that has no room for that gap
LINE = 24  # pixels from a line of the legend to the next
# The palette of Okabe and Ito, which people with any of the color deficiencies can tell apart.
BLUE, ORANGE, GREEN, PURPLE, SKY, YELLOW, RED, GRAY = (
    "#0072b2", "#e69f00", "#009e73", "#cc79a7", "#56b4e9", "#f0e442", "#d55e00", "#999999")
STYLE = (f"text{{font:{TEXT}px {FONT}}}.name{{text-anchor:middle;paint-order:stroke;stroke:#fff;stroke-width:4px;stroke-linejoin:round}}"
         f".counts{{font-size:{SMALL}px;text-anchor:middle}}.number{{font-size:9px;text-anchor:middle}}path,line{{fill:none}}")

Note = tuple[Callable[[float, float], str] | None, str]  # of the legend: a sample, made from the middle of its place, and a text


def fit(places: Places) -> tuple[Places, int, int]:
    """Places in pixels, and the picture's width and height: the same scale across and down, and as much room for each router, until the
    picture is as wide as it may be."""
    if not places:
        return {}, NARROWEST, 2 * MARGIN
    left, top, right, bottom = bounds(places)
    longest, room = max(right - left, bottom - top), WIDEST - 2 * MARGIN_ASIDE
    area = max(right - left, 0.3 * longest) * max(bottom - top, 0.3 * longest)
    scale = math.sqrt(AREA * len(places) / area) if longest > 1e-9 else 0.0
    scale = min(scale, room / (right - left)) if right - left > 1e-9 else scale
    gap = min(LEAST_GAP, CLOSEST * scale * math.sqrt(area / len(places))) if scale else LEAST_GAP
    places = apart({router: ((x - left) * scale, (y - top) * scale) for router, (x, y) in sorted(places.items())}, gap)
    left, top, right, bottom = bounds(places)
    if (smaller := room / max(right - left, room)) < 1:  # some were moved over the edge
        places = {router: (x * smaller, y * smaller) for router, (x, y) in places.items()}
        left, top, right, bottom = bounds(places)
    wide = max(round(right - left + 2 * MARGIN_ASIDE), NARROWEST)
    aside = (wide - (right - left)) / 2
    return ({router: (x - left + aside, y - top + MARGIN) for router, (x, y) in places.items()},
            wide, round(bottom - top + 2 * MARGIN))


def apart(places: Places, gap: float = LEAST_GAP) -> Places:
    """The places, moved where routers would cover each other."""
    at = []
    there: dict[tuple[float, float], int] = collections.Counter()
    for x, y in places.values():  # several at one place go round it, as the seeds of a sunflower
        far, angle = 0.6 * gap * math.sqrt(there[x, y]), 2.4 * there[x, y]
        there[x, y] += 1
        at.append((x + far * math.cos(angle), y + far * math.sin(angle)))
    for _ in range(200):
        before = list(at)
        for one, other in sorted(near_pairs(at, gap)):
            far = math.dist(at[one], at[other])
            if far < gap - 0.5:
                angle = math.atan2(at[other][1] - at[one][1], at[other][0] - at[one][0])
                step = (gap - far) / 2
                over, down = step * math.cos(angle), step * math.sin(angle)
                at[one], at[other] = (at[one][0] - over, at[one][1] - down), (at[other][0] + over, at[other][1] + down)
        if at == before:
            break
    return dict(zip(places, at))


def shown(text: str) -> str:
    """The text as it may be in a document: markup is taken for text, and a character that XML doesn't have is replaced."""
    return escape("".join(it if it >= " " and not "\ud800" <= it <= "\udfff" and it not in "\ufffe\uffff" else "\ufffd" for it in text))


def hover(text: str) -> str:
    """What a browser shows where the pointer is; a line for each line of the text."""
    return "<title>" + "\n".join(shown(line) for line in text.split("\n")) + "</title>"


def text_in(box: Box, text: str, kind: str, size: int = TEXT, color: str = "") -> str:
    (x, y), style = base_of(box, size), f' style="fill:{color}"' if color else ""
    return f'<text class="{kind}" x="{x:.1f}" y="{y:.1f}"{style}>{shown(text)}</text>'


def picture(title: str, wide: int, high: int, drawn: Iterable[str], notes: Iterable[Note], desc: str = "") -> list[str]:
    """The picture's lines, with the notes of the legend below what is drawn. A description is for readers who don't see it."""
    legend, y = [], high
    for sample, text in notes:
        if sample:
            legend.append(sample(40, y + LINE / 2))
        for part in wrapped(text, wide - 90):
            legend.append(f'<text class="note" x="70" y="{y + LINE / 2 + TEXT * ASCENT / 2 - 2:.1f}">{shown(part)}</text>')
            y += LINE
    return [f'<svg xmlns="http://www.w3.org/2000/svg" viewBox="0 0 {wide} {y + 10}" width="{wide}" role="img">',
            f"<title>{shown(title)}</title>", *([f"<desc>{shown(desc)}</desc>"] if desc else []), f"<style>{STYLE}</style>",
            f'<rect width="{wide}" height="{y + 10}" fill="#fff"/>',
            *drawn, *legend, "</svg>"]
