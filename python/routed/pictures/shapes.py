"""The shapes of pictures: curves of circuits, routers, marks and names."""
from __future__ import annotations

import collections
import math
from collections.abc import Callable, Collection, Sequence
from typing import NamedTuple

from .canvas import Note, hover, text_in
from .labels import Box, Boxes, Sheet, Wanted, spots_round
from .layout import Place, Places
from .positions import Names

BEND = 16  # how far apart circuits between the same two routers are
BENDS = [0, 20, -20, 34, -34, 50, -50]  # how far a circuit may go aside, so that it doesn't pass under a third router
CLEAR = 13  # pixels from a circuit to the middle of a third router
ROUTER, NUMBERED = 6, 9  # radius of a router, and of one that has a number in place of a name; all names keep off the larger one
BAND = "stroke:#ffc46b;stroke-width:15"  # under what is overbooked
APART = 17  # pixels between two lines along a circuit
INK = 1.5  # what a name pays for each point of a circuit under it
MOST_NUMBERED = 60  # routers whose names have no room, above which they have no numbers
MANY = 200  # routers, from which on they and their circuits are drawn smaller
DOT = 4  # radius of a router there
MOST_SAMPLED = 3000  # circuits, above which they don't go round routers, and names don't go round circuits


class Curve(NamedTuple):
    """A quadratic Bézier curve."""

    start: Place
    control: Place
    end: Place

    def at(self, part: float) -> Place:
        """The point at a part of the curve, from 0 to 1."""
        x, y = ((1 - part) ** 2 * a + 2 * part * (1 - part) * b + part ** 2 * c for a, b, c in zip(*self))
        return x, y

    def angle(self, part: float) -> float:
        """The direction at a part of the curve, in radians."""
        over, down = ((1 - part) * (b - a) + part * (c - b) for a, b, c in zip(*self))
        return math.atan2(down, over)

    def points(self) -> list[Place]:
        steps = max(2, int(math.dist(self.start, self.end) / 8))
        return [self.at(step / steps) for step in range(steps + 1)]

    def reversed(self) -> Curve:
        return Curve(self.end, self.control, self.start)

    def aside(self, far: float) -> Curve:
        """The curve moved to the right of its direction, in pixels."""
        angle = math.atan2(self.end[1] - self.start[1], self.end[0] - self.start[0])
        over, down = -far * math.sin(angle), far * math.cos(angle)
        return Curve(*((x + over, y + down) for x, y in self))

    def path(self, verb: str = "M") -> str:
        (x, y), (by_x, by_y), (to_x, to_y) = self
        return f"{verb}{x:.1f} {y:.1f}Q{by_x:.1f} {by_y:.1f} {to_x:.1f} {to_y:.1f}"


def curve(start: Place, end: Place, bend: float) -> Curve:
    """A curve whose middle is that far to the right of the straight line."""
    angle = math.atan2(end[1] - start[1], end[0] - start[0])
    return Curve(start, ((start[0] + end[0]) / 2 - 2 * bend * math.sin(angle), (start[1] + end[1]) / 2 + 2 * bend * math.cos(angle)), end)


def curves(ends: Sequence[tuple[str, str]], places: Places) -> list[Curve]:
    """A curve for each pair of ends. Several between the same two routers are apart, and none passes under a third router where that can be
    avoided."""
    between: dict[tuple[str, str], list[int]] = collections.defaultdict(list)
    found: dict[int, Curve] = {}
    routers = Boxes()
    for router, (x, y) in places.items():
        routers.put(router, (x - CLEAR, y - CLEAR, x + CLEAR, y + CLEAR))
    for index, pair in enumerate(ends):
        between[min(pair), max(pair)].append(index)
    for pair, together in between.items():
        one, other = (places[router] for router in pair)
        tried = (side_by_side(one, other, len(together), bend) for bend in BENDS if len(ends) <= MOST_SAMPLED)
        clear = (them for them in tried if all(routers.meeting((x, y, x, y)).keys() <= set(pair) for it in them for x, y in it.points()))
        made = next(clear, side_by_side(one, other, len(together), 0))
        for index, it in zip(together, made):
            found[index] = it if ends[index] == pair else it.reversed()
    return [found[index] for index in range(len(ends))]


def side_by_side(start: Place, end: Place, count: int, bend: float) -> list[Curve]:
    """Curves of several circuits between the same two routers."""
    return [curve(start, end, bend + (at - (count - 1) / 2) * BEND) for at in range(count)]


def arrow(line: Curve, color: str, part: float = 0.55) -> str:
    """The head of an arrow on a curve."""
    (x, y), angle = line.at(part), line.angle(part)
    tip, left, right = ((x + far * math.cos(angle + turn), y + far * math.sin(angle + turn)) for far, turn in ((8, 0), (7, 2.5), (7, -2.5)))
    corners = "L".join(f"{x:.1f} {y:.1f}" for x, y in (tip, left, right))
    return f'<path class="arrow" d="M{corners}z" style="fill:{color}"/>'


def line(kind: str, path: str, style: str, text: str = "") -> str:
    begun = f'<path class="{kind}" d="{path}" style="{style}"'
    return f"{begun}>{hover(text)}</path>" if text else f"{begun}/>"


def router(x: float, y: float, is_marked: bool, radius: float = ROUTER, text: str = "") -> str:
    """A circle; a square with a cross in it for a router without transit."""
    style, inside = 'style="fill:#fff;stroke:#000;stroke-width:2"', hover(text) if text else ""
    if not is_marked:
        return f'<circle class="router" cx="{x:.1f}" cy="{y:.1f}" r="{radius}" {style}>{inside}</circle>'
    half = 7 if radius == ROUTER else radius
    cross = "" if radius == NUMBERED else f"l{2 * half} {2 * half}m0 -{2 * half}l-{2 * half} {2 * half}"  # or else a number
    return f'<path class="no-transit" d="M{x - half:.1f} {y - half:.1f}h{2 * half}v{2 * half}h-{2 * half}z{cross}" {style}>{inside}</path>'


def plate(box: Box) -> str:
    """White under a text that is on a line."""
    left, top, right, bottom = box
    return (f'<rect x="{left - 1:.1f}" y="{top + 1:.1f}" width="{right - left + 2:.1f}" height="{bottom - top - 2:.1f}" '
            'rx="4" style="fill:#fff"/>')


def ring(x: float, y: float, radius: float, color: str, dash: str = "") -> str:
    """Where a route begins."""
    return (f'<circle class="from" cx="{x:.1f}" cy="{y:.1f}" r="{radius}" '
            f'style="fill:none;stroke:{color};stroke-width:2.5;stroke-dasharray:{dash or "none"}"/>')


def diamond(x: float, y: float, radius: float, color: str, dash: str = "") -> str:
    """Where a route ends."""
    return (f'<path class="to" d="M{x:.1f} {y - radius:.1f}l{radius} {radius}l-{radius} {radius}l-{radius} -{radius}z" '
            f'style="stroke:{color};stroke-width:2.5;stroke-dasharray:{dash or "none"}"/>')


def square(x: float, y: float, radius: float, color: str, dash: str = "") -> str:
    """What each way of a pair passes."""
    return (f'<path class="through" d="M{x - radius:.1f} {y - radius:.1f}h{2 * radius}v{2 * radius}h-{2 * radius}z" '
            f'style="stroke:{color};stroke-width:2.5;stroke-dasharray:{dash or "none"}"/>')


def square_sample(color: str, dash: str) -> Callable[[float, float], str]:
    return lambda x, y: square(x, y, 9, color, dash)


def two_lines(color: str, dash: str, far: int = APART) -> tuple[str, str]:
    """The styles of two lines along a circuit, so far apart: of one line as wide as both, and of a white one on it."""
    return f"stroke:{color};stroke-width:{far + 5};stroke-dasharray:{dash or 'none'}", f"stroke:#fff;stroke-width:{far}"


def two_lines_sample(color: str, dash: str) -> Callable[[float, float], str]:
    wide, white = map(sample, two_lines(color, dash, 8))
    return lambda x, y: wide(x, y) + white(x, y)


def sample(style: str) -> Callable[[float, float], str]:
    """A line of the legend's sample."""
    return lambda x, y: f'<line x1="{x - 20}" y1="{y}" x2="{x + 20}" y2="{y}" style="{style}"/>'


def one_way_sample(x: float, y: float) -> str:
    return sample("stroke:#444;stroke-width:2")(x, y) + arrow(curve((x - 20, y), (x + 20, y), 0), "#444", 0.8)


def place_names(sheet: Sheet, places: Places, names: Names, radii: dict[str, float], curves: list[Curve],
                first: Collection[str] = ()) -> None:
    """Gives the routers' names their boxes, beside the routers and off the circuits where that can be. Some have theirs first,
    and where these have no room they cover other routers."""
    for router, (x, y) in places.items():
        half = radii[router] + 0.5
        sheet.block(router, (x - half, y - half, x + half, y + half))
    for it in curves if len(curves) <= MOST_SAMPLED else ():
        sheet.line(it.points(), INK)
    wanted = {router: Wanted(router, spots_round(*places[router], radii[router], names[router])) for router in sorted(places)}
    sheet.place([wanted[router] for router in sorted(first)])
    for router in sorted(first):
        sheet.place_over(wanted[router])
    sheet.place([text for router, text in wanted.items() if router not in first])


def routers(sheet: Sheet, places: Places, names: Names, marks: Collection[str]) -> tuple[list[str], list[Note]]:
    """The routers and their names, and the note of the names that have no room. Their routers have numbers in them, where these are few."""
    boxes = {at: sheet.box(at) for at in sorted(places)}
    unnamed = [at for at, box in boxes.items() if not box]
    numbers = {at: number for number, at in enumerate(unnamed if len(unnamed) <= MOST_NUMBERED else [], 1)}
    drawn = []
    for at in boxes:
        says = (names[at] if names[at] == at else f"{names[at]}, {at}") + (", no transit" if at in marks else "")
        drawn.append(router(*places[at], at in marks, NUMBERED if at in numbers else ROUTER if len(places) < MANY else DOT, says))
        if at in numbers:
            x, y = places[at]
            drawn.append(f'<text class="number" x="{x:.1f}" y="{y + 3.3:.1f}">{numbers[at]}</text>')
    listed = ", ".join(f"{number} {names[at]}" for at, number in numbers.items())
    drawn += [text_in(box, names[at], "name") for at, box in boxes.items() if box]
    if numbers:
        return drawn, [(None, f"Names without room: {listed}")]
    told = f"{len(unnamed)} names have no room: a browser shows them at the pointer, and --around draws a part"
    return drawn, [(None, told)] if unnamed else []
