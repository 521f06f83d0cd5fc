"""Where a picture has its routers, names and circuits: what a page draws, as JSON. The page runs this as a program of its own.

It reads one line of JSON: `routers`, `circuits`, `names`, and `places` of routers that stay where they are. It writes two: the picture, and
all places in the layout's units. Sizes and colors are those of `draw`.
"""
from __future__ import annotations

import json
import os
import sys
from typing import IO, Any

from ..model.rows import Link
from . import draw, draw_failures, shapes
from .canvas import fit
from .labels import FONT, TEXT, Sheet, base_of, cut, width
from .layout import Places, complete
from .positions import Names

NICE = 5  # of a long layout, so that asks come first
WIDEST_NAME = 250  # pixels, where longer ones are cut
DASHES = ["", "9 4", "3 3", "14 3 3 3", "6 6", "18 5", "9 3 3 3 3 3"]  # one for each color of groups, which differ without color, too
EFFECTS = {"lost": "a pinned ask loses its route", "longer": "no pinned ask loses its route, and one gets a longer route",
           "none": "no pinned ask is worse off"}  # of what is taken out

Circuit = tuple[str, str, str, str]  # a router and its interface, the neighbor and its interface


def circuit_of(link: Link) -> Circuit:
    """The same for both links of a circuit."""
    one, other = (link.router, link.local), (link.neighbor, link.remote)
    return (*one, *other) if one < other else (*other, *one)


def picture(places: Places, names: Names, circuits: list[Circuit]) -> dict[str, Any]:
    """Where everything is, in pixels. A router has a radius. A name has the middle of its base line, its text, the text's width, and
    whether there is room for it; those with room come first. A circuit has the control point of its curve, whose ends are the routers."""
    at, wide, high = fit(places)
    sheet, curves = Sheet(wide, high), shapes.curves([(one, other) for one, _, other, _ in circuits], at)
    texts = {router: cut(names[router], WIDEST_NAME) for router in sorted(at)}
    shapes.place_names(sheet, at, texts, dict.fromkeys(at, shapes.NUMBERED), curves)
    boxes = {router: box for router in texts if (box := sheet.box(router))}
    radius = shapes.ROUTER if len(at) < shapes.MANY else shapes.DOT
    return {
        "wide": wide, "high": high,
        "routers": {router: [*rounded(at[router]), radius] for router in texts},
        "names": {router: [*rounded(base_of(boxes[router]) if router in boxes else (at[router][0], at[router][1] - 2 * radius)),
                           texts[router], round(width(texts[router])), router in boxes]
                  for router in sorted(texts, key=lambda router: router not in boxes)},
        "circuits": {" ".join(circuit): rounded(curve.control) for circuit, curve in zip(circuits, curves)},
        "look": look(len(at)),
    }


def rounded(place: tuple[float, float]) -> list[float]:
    return [round(it, 1) for it in place]


def look(count: int) -> dict[str, Any]:
    """The colors and sizes of `draw` and `draw-failures`, for a picture of so many routers."""
    count_of_colors = len(draw.GROUP_COLORS)
    groups = [stroke(draw.GROUP_COLORS[at % count_of_colors], 4, DASHES[(at + at // count_of_colors) % len(DASHES)])
              for at in range(count_of_colors * len(DASHES))]
    effects = {}
    for kind, words in EFFECTS.items():
        parts = dict(part.split(":") for part in draw_failures.KINDS[kind][0].split(";"))
        effects[kind] = {**stroke(parts["stroke"], int(parts["stroke-width"]), parts.get("stroke-dasharray", "")), "words": words}
    return {"groups": groups, "routes": [stroke(color, 3, dash) for color, dash in draw.ROUTE_STYLES], "thinnest": draw.THINNEST,
            "widest": draw.WIDEST, "size": 1.0 if count < shapes.MANY else draw.SMALLER, "font": FONT, "text": TEXT, "effects": effects}


def stroke(color: str, width: int, dash: str) -> dict[str, Any]:
    return {"stroke": color, "width": width, "dash": dash}


def laid_out(source: IO[str], to: IO[str]) -> None:
    """Writes the picture, and the places in the layout's units."""
    asked = json.load(source)
    if len(asked["routers"]) >= shapes.MANY:
        os.nice(NICE)
    circuits: list[Circuit] = [(one, local, other, remote) for one, local, other, remote in asked["circuits"]]
    pairs = sorted({(min(one, other), max(one, other)) for one, _, other, _ in circuits})
    places = complete({router: (x, y) for router, (x, y) in asked["places"].items()}, asked["routers"], pairs) if asked["routers"] else {}
    for part in (picture(places, asked["names"], circuits), places):
        to.write(json.dumps(part, separators=(",", ":")) + "\n")


if __name__ == "__main__":
    laid_out(sys.stdin, sys.stdout)
