"""Draws as SVG how much bandwidth a link has left at each version of a journal, and which replies use its circuit.

    routed-tools draw-circuit JOURNAL ROUTER,LOCAL [--replies FILE] > S.svg

The journal of `routed serve --book` has the bandwidth that the tunnels leave. Each reply is a mark at its version: on the line if its
route uses the circuit, in either direction, else below the axis. The picture goes to standard output.
"""
from __future__ import annotations

import argparse
import itertools
from collections.abc import Callable, Iterator
from typing import NamedTuple

from ..model.advice import not_rows, open_quote
from ..model.names import Names, NamesRefused, add_names
from ..model.rows import Key, Refused, is_address
from ..program import failed
from .canvas import BLUE, MARGIN, ORANGE, RED, Note, hover, picture, text_in
from .labels import SMALL, box_of, width
from .shapes import sample
from .uses import USES, Followed, Told, follow, read_replies

WIDE, HIGH = 960, 250  # pixels of the picture, and of its scale of bandwidths
RIGHT, GAP = 30, 8  # pixels at the right of the scale, and between a label and the scale
LANE, BELOW = 24, 20  # pixels from an axis or a lane to the next, and from the last lane to the numbers of versions
MOST_COLUMNS = 400  # in which versions are drawn; where there are more versions, a column has several
MOST_TICKS = 5  # of bandwidths
TICK = 40  # pixels that the number of a version has at least
SIZE, LARGER, APART = 4, 6, 9  # pixels: half a mark, half a mark of several replies, and from one mark to the next
SAID = 12  # replies and bandwidths that a text names
LANES = ["another way", "no route"]  # below the axis
LANE_OF = {"other": 0, "none": 1}  # of the uses that aren't on the line
TEXTS = {"used": "route uses the link", "back": "route uses the circuit in the other direction", "other": "route takes another way",
         "none": "no route"}


class Column(NamedTuple):
    """Versions that are drawn as one, and the least that the link has left in them."""

    first: int
    last: int
    left: int | None


def columns_of(lefts: list[int | None], first: int) -> list[Column]:
    """The columns of the versions from the first one on, each with as many versions."""
    count = -(-(len(lefts) - first) // MOST_COLUMNS)
    starts = range(first, len(lefts), count)
    return [Column(at, min(at + count, len(lefts)) - 1, min((it for it in lefts[at:at + count] if it is not None), default=None))
            for at in starts]


def step_of(most: float, count: int) -> int:
    """The least of 1, 2, 5, 10, 20, 50 and so on that is the most or more when it is taken so many times."""
    return next(it * 10 ** power for power in itertools.count() for it in (1, 2, 5) if it * 10 ** power * count >= most)


def versions_text(first: int, last: int) -> str:
    return f"version {first:,}" if first == last else f"versions {first:,} to {last:,}"


def left_text(left: int | None) -> str:
    return "the link isn't there" if left is None else f"{left:,} bytes per second left"


def shape(use: str, x: float, y: float, half: float = SIZE, text: str = "") -> str:
    """The mark of a reply."""
    inside = hover(text) if text else ""
    if use in ("used", "back"):
        fill = BLUE if use == "used" else "#fff"
        return (f'<circle class="{use}" cx="{x:.1f}" cy="{y:.1f}" r="{half}" style="fill:{fill};stroke:{BLUE};stroke-width:2">{inside}'
                "</circle>")
    if use == "other":
        path, style = f"M{x:.1f} {y - half:.1f}l{half} {half}l-{half} {half}l-{half} -{half}z", f"fill:{ORANGE};stroke:{ORANGE}"
    else:
        path, style = f"M{x - half:.1f} {y - half:.1f}l{2 * half} {2 * half}m0 -{2 * half}l-{2 * half} {2 * half}", f"stroke:{RED}"
    return f'<path class="{use}" d="{path}" style="{style};stroke-width:2">{inside}</path>'


def shape_sample(use: str) -> Callable[[float, float], str]:
    return lambda x, y: shape(use, x, y)


class Chart:
    """The scales of a chart: versions from left to right, bandwidths from the axis up, and the lanes of replies below it."""

    def __init__(self, columns: list[Column], most: int) -> None:
        self.columns, self.step = columns, step_of(max(most, 1), MOST_TICKS)
        self.count = columns[0].last + 1 - columns[0].first  # versions of a column
        self.top = self.step * max(1, -(-most // self.step))
        labels = [*(f"{it:,}" for it in range(0, self.top + 1, self.step)), *LANES]
        self.left = MARGIN / 2 + max(width(label, SMALL) for label in labels) + GAP
        self.wide = (WIDE - RIGHT - self.left) / len(columns)
        self.axis = MARGIN + HIGH
        self.end = self.axis + LANE * len(LANES) + BELOW

    def x(self, index: float) -> float:
        return self.left + index * self.wide

    def y(self, left: int) -> float:
        return self.axis - HIGH * left / self.top

    def lane(self, lane: int) -> float:
        return self.axis + LANE * (lane + 1)

    def text(self, x: float, y: float, text: str) -> str:
        return text_in(box_of(x, y, text, SMALL), text, "counts", SMALL)

    def aside(self, y: float, text: str) -> str:
        """A label at the left of the scale."""
        return self.text(self.left - GAP - width(text, SMALL) / 2, y, text)

    def scales(self, priority: int) -> Iterator[str]:
        """The lines and labels of both scales."""
        right = self.x(len(self.columns))
        for left in range(0, self.top + 1, self.step):
            color = "#ddd" if left else "#000"
            yield f'<path class="scale" d="M{self.left:.1f} {self.y(left):.1f}H{right:.1f}" style="stroke:{color}"/>'
            yield self.aside(self.y(left), f"{left:,}")
        for lane, label in enumerate(LANES):
            yield self.aside(self.lane(lane), label)
        says = f"bytes per second left at priority {priority}"
        yield self.text(MARGIN / 2 + width(says, SMALL) / 2, MARGIN / 2, says)
        first, last = self.columns[0].first, self.columns[-1].last
        room = max(TICK, width(f"{last:,}", SMALL) + 2 * GAP)
        step = step_of(last + 1 - first, max(1, int((right - self.left) // room)))
        for index, column in enumerate(self.columns):
            if (number := -(-column.first // step) * step) <= column.last:
                yield self.text(self.x(index + 0.5), self.end, f"{number:,}")
        yield self.text(self.left - GAP - width("version", SMALL) / 2, self.end, "version")

    def runs(self) -> Iterator[tuple[int, int, int | None]]:
        """Columns side by side in which the link has as much left: the first index, the one behind the last, and what is left."""
        for left, run in itertools.groupby(range(len(self.columns)), key=lambda index: self.columns[index].left):
            indices = list(run)
            yield indices[0], indices[-1] + 1, left

    def line(self) -> Iterator[str]:
        """The steps of the link and the area under them; where the link isn't there, they are interrupted."""
        for is_there, runs in itertools.groupby(self.runs(), key=lambda run: run[2] is not None):
            if is_there:
                some = list(runs)
                path = "".join(f"V{self.y(left or 0):.1f}H{self.x(end):.1f}" for _, end, left in some)
                begin = self.x(some[0][0])
                yield f'<path class="area" d="M{begin:.1f} {self.axis:.1f}{path}V{self.axis:.1f}z" style="fill:#dcebf5"/>'
                path = f"M{begin:.1f} {self.y(some[0][2] or 0):.1f}{path[path.index('H'):]}"
                yield f'<path class="left" d="{path}" style="stroke:{BLUE};stroke-width:2.5"/>'
        for begin, end, left in self.runs():
            says = f"{versions_text(self.columns[begin].first, self.columns[end - 1].last)}: {left_text(left)}"
            yield (f'<rect class="run" x="{self.x(begin):.1f}" y="{MARGIN}" width="{(end - begin) * self.wide:.1f}" height="{HIGH}" '
                   f'style="fill-opacity:0">{hover(says)}</rect>')

    def marks(self, told: list[Told]) -> Iterator[tuple[list[Told], float, float]]:
        """The replies of each mark and its place, in the column of their version. Where marks have no room side by side, the replies of
        one use have one."""
        there: dict[tuple[int, int], list[Told]] = {}
        for it in told:
            there.setdefault(((it.version - self.columns[0].first) // self.count, LANE_OF.get(it.use, -1)), []).append(it)
        for (index, lane), some in sorted(there.items()):
            groups = [[it] for it in some]
            if len(groups) > max(1, self.wide // APART):
                groups = [[it for it in some if it.use == use] for use in dict.fromkeys(it.use for it in some)]
            y = self.lane(lane) if lane >= 0 else self.y(self.columns[index].left or 0)
            for at, group in enumerate(groups):
                yield group, self.x(index + (at + 0.5) / len(groups)), y


def said_of(group: list[Told]) -> str:
    """What is said of a mark where the pointer is."""
    names = ", ".join(it.reply for it in group[:SAID]) + (", .." if len(group) > SAID else "")
    return f"{f'{len(group):,} replies: ' if len(group) > 1 else ''}{names}: {TEXTS[group[0].use]}"


def replies_text(count: int, use: str) -> str:
    return f"{count:,} {'reply' if count == 1 else 'replies'}: {TEXTS[use]}"


def circuit_picture(title: str, followed: Followed, priority: int, names: Names) -> list[str]:
    """The lines of the whole picture. It begins at version 1, or at version 0 if there is a reply at it."""
    link, lefts, told = followed
    chart = Chart(columns_of(lefts, 0 if any(not it.version for it in told) else 1), max(it or 0 for it in lefts))
    name = f"{names.name_of(link.router)} to {names.name_of(link.neighbor)} ({','.join(link.key)})"
    counts = {use: sum(it.use == use for it in told) for use in USES}
    marks = list(chart.marks(told))
    notes: list[Note] = [(sample(f"stroke:{BLUE};stroke-width:2.5"), f"what the link {name} has left at priority {priority}")]
    notes += [(shape_sample(use), replies_text(count, use)) for use, count in counts.items() if count]
    drawn = [*chart.scales(priority), *chart.line(),
             *(shape(group[0].use, x, y, SIZE if len(group) == 1 else LARGER, said_of(group)) for group, x, y in marks)]
    if any(len(group) > 1 for group, _, _ in marks):
        notes.append((None, "a larger mark: several replies"))
    if any(column.left is None for column in chart.columns):
        notes.append((None, "no line: the link isn't in the network"))
    if chart.count > 1:
        notes.append((None, f"a step is {chart.count:,} versions: the least that is left in them"))
    runs = [(chart.columns[begin].first, chart.columns[end - 1].last, left) for begin, end, left in chart.runs()]
    says = [f"{versions_text(first, last)}: {left_text(left)}" for first, last, left in runs[:SAID]] + [".."] * (len(runs) > SAID)
    told_of = [replies_text(count, use) for use, count in counts.items() if count]
    desc = f"{name} at priority {priority}. {'; '.join(says)}.{''.join(f' {it}.' for it in told_of)}"
    return picture(title, WIDE, round(chart.end + BELOW), drawn, notes, desc)


def key_of(text: str) -> Key:
    """The key of a link that a command line names."""
    key = tuple(text.split(","))
    if len(key) != 2 or not all(map(is_address, key)):
        raise argparse.ArgumentTypeError(f"{text!r} is no link; a link is a router, a comma, and the interface at which it begins")
    return key


def main(words: list[str] | None = None) -> int:
    """Takes the words of a command line, and answers the status."""
    asked = argparse.ArgumentParser(prog="routed-tools draw-circuit", description=__doc__,
                                    formatter_class=argparse.RawDescriptionHelpFormatter)
    asked.add_argument("journal", help="the journal, such as that of `routed serve --book`")
    asked.add_argument("link", type=key_of, metavar="ROUTER,LOCAL", help="the router and the interface at which the link begins")
    asked.add_argument("--replies", action="append", default=[], metavar="FILE",
                       help="lines of a client; may be given several times. Other lines of routed are passed over")
    asked.add_argument("--priority", type=int, choices=range(8), default=7, help="the priority whose bandwidth is drawn (7)")
    add_names(asked)
    asked.add_argument("--title", default="Circuit")
    given = asked.parse_args(words)
    try:
        names = Names.read(given.names)
        with open(given.journal, "rb") as rows:
            data = rows.read()
        if told := not_rows(data):
            raise Refused(told)
        print(*circuit_picture(given.title, follow(data, given.link, given.priority, read_replies(given.replies)), given.priority, names),
              sep="\n")
    except NamesRefused as fault:
        return failed("draw-circuit", fault)
    except Refused as fault:
        return failed("draw-circuit", f"{given.journal}: {fault}{open_quote(data)}")
    except (OSError, ValueError) as fault:
        return failed("draw-circuit", fault)
    return 0
