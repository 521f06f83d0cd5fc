"""Draws as SVG what each circuit's failure does, from the lines that `sweep` prints of single circuits.

The color of a circuit is the worst effect of its failure. Its text says how many requests lose their route, how many get a longer
one, and how many links are then overbooked. The lines come on standard input, and the picture goes to standard output.
"""
from __future__ import annotations

import argparse
import re
import sys
from collections.abc import Iterable

from ..model.advice import format_of
from ..model.rows import Refused
from ..program import failed
from ..sweep.swept import Failure, Overbooked, failures, overbooked_before, plain
from . import positions, shapes
from .canvas import BLUE, GRAY, ORANGE, RED, Note, fit, picture, text_in
from .labels import SMALL, Sheet, Wanted, box_of
from .layout import Places
from .positions import Names
from .shapes import Curve

KINDS = {"lost": (f"stroke:{RED};stroke-width:6", "a request loses its route"),
         "overbooked": (f"stroke:{ORANGE};stroke-width:4;stroke-dasharray:10 4",
                        "no request loses its route, and a link is overbooked more than before"),
         "longer": (f"stroke:{BLUE};stroke-width:4", "no route is lost, no link is overbooked more, and a request gets a longer route"),
         "none": (f"stroke:{GRAY};stroke-width:2", "no request and no link is worse off")}
INK = {"lost": "#a84300", "longer": "#005a8e", "overbooked": "#8a5f00"}  # of the counts, dark enough to read
ALONG = (0.5, 0.44, 0.56, 0.38, 0.62, 0.32, 0.68, 0.26, 0.74, 0.2, 0.8)  # where on its circuit a count may be
IDS = 12  # of requests that are named where the pointer is


Over = dict[Failure, list[Overbooked]]  # what is overbooked of each circuit while nothing fails


def kind_of(failure: Failure) -> str:
    return "lost" if failure.lost else "overbooked" if failure.overbooked else "longer" if failure.longer else "none"


def counts_of(failure: Failure) -> str:
    return f"{failure.lost}/{failure.longer}/{len(failure.overbooked)}"


def between(failure: Failure, names: Names) -> str:
    return f"{names[failure.one]} {'–' if failure.is_circuit else 'to'} {names[failure.other]}"


def about(failure: Failure, names: Names, over: list[Overbooked]) -> str:
    """What is said of a circuit where the pointer is on it."""
    says = [f"without {between(failure, names)} ({failure.link})"]
    touched = (failure.lost, failure.lost_ids, "lose their route"), (failure.longer, failure.longer_ids, "get a longer one")
    for count, ids, what in touched:
        says += [f"{count} {what}: {', '.join(ids[:IDS])}{', ..' if len(ids) > IDS else ''}"] if count else []
    says += [f"overbooked then: {link}" for link in failure.overbooked[:IDS]]
    says += [f"overbooked while nothing fails, at priority {it.priority}: {it.asked:,} bytes per second are asked of {it.unreserved:,}"
             for it in over]
    return "\n".join(says)


def place_counts(found: list[Failure], curves: list[Curve], sheet: Sheet) -> None:
    """Gives the counts their boxes, each on its circuit or beside it."""
    wanted = []
    for index, (failure, line) in enumerate(zip(found, curves)):
        if kind_of(failure) != "none":
            spots = [(box_of(*line.aside(aside).at(part), counts_of(failure), SMALL), against + abs(part - 0.5) * 10)
                     for aside, against in ((0, 0), (14, 12), (-14, 12)) for part in ALONG]
            wanted.append(Wanted(index, spots))
    sheet.place(wanted, ink=0.3)


def failures_picture(title: str, found: list[Failure], over: Over, places: Places, names: Names) -> Iterable[str]:
    """The lines of the whole picture."""
    places, wide, high = fit(places)
    sheet, curves, drawn = Sheet(wide, high), shapes.curves([(it.one, it.other) for it in found], places), []
    drawn += [shapes.line("band", line.path(), shapes.BAND) for failure, line in zip(found, curves) if over[failure]]
    for failure, line in zip(found, curves):
        style = KINDS[kind_of(failure)][0]
        if len(places) >= shapes.MANY:
            style = re.sub(r"width:(\d)", lambda found: f"width:{int(found[1]) / 2:g}", style)
        drawn.append(shapes.line(kind_of(failure), line.path(), style, about(failure, names, over[failure])))
        drawn += [] if failure.is_circuit else [shapes.arrow(line, "#444", 0.8)]
    shapes.place_names(sheet, places, names, dict.fromkeys(places, shapes.NUMBERED), curves)
    place_counts(found, curves, sheet)
    routers, unnamed = shapes.routers(sheet, places, names, ())
    drawn += routers
    absent = []
    for index, failure in enumerate(found):
        if box := sheet.box(index):
            drawn += [shapes.plate(box), text_in(box, counts_of(failure), "counts", SMALL, INK[kind_of(failure)])]
        elif kind_of(failure) != "none":
            absent.append(failure)
    return picture(title, wide, high, drawn, [*notes_of(found, over, names, absent), *unnamed])


def notes_of(found: list[Failure], over: Over, names: Names, absent: list[Failure]) -> list[Note]:
    """The legend, and what has no room in the picture."""
    kinds = {kind_of(failure) for failure in found}
    notes: list[Note] = [(shapes.sample(style), text) for kind, (style, text) in KINDS.items() if kind in kinds]
    if not found:
        notes.append((None, "The network has no circuits."))
    if kinds - {"none"}:
        notes.append((None, "l/m/o: l requests lose their route, m get a longer one, o links are overbooked more than before"))
    if any(over.values()):
        notes.append((shapes.sample(shapes.BAND), "overbooked while nothing fails: more is asked of it than it has unreserved"))
    if not all(failure.is_circuit for failure in found):
        notes.append((shapes.one_way_sample, "one direction alone"))
    if absent:
        notes.append((None, "Counts without room: " + ", ".join(f"{between(it, names)} {counts_of(it)}" for it in absent)))
    return notes


def by_circuit(found: list[Failure], before: dict[str, list[Overbooked]]) -> Over:
    """What is overbooked of each circuit while nothing fails, in either direction. A line names a link by its addresses in order."""
    found_there: Over = {}
    for failure in found:
        router, local, neighbor, remote = failure.link.split()
        back = before.get(f"{neighbor} {remote} {router} {local}", []) if failure.is_circuit else []
        found_there[failure] = before.get(failure.link, []) + back
    return found_there


def main(words: list[str] | None = None) -> int:
    """Takes the words of a command line, and answers the status."""
    asked = argparse.ArgumentParser(prog="routed-tools draw-failures", description=__doc__,
                                    formatter_class=argparse.RawDescriptionHelpFormatter)
    positions.add_options(asked)
    asked.add_argument("--title", default="Failures of circuits")
    given = asked.parse_args(words)
    try:
        data = sys.stdin.buffer.read()
        if told := format_of(data):
            return failed("draw-failures", f"standard input can't be a sweep: {told}")
        lines = [plain(line) for line in data.decode(errors="replace").splitlines()]
        try:
            found = failures(lines)
        except ValueError as fault:
            return failed("draw-failures", fault, advice="give all that sweep prints of single circuits")
        part = positions.part_of(given, [(failure.one, failure.other) for failure in found])
        if part is not None:
            found = [failure for failure in found if failure.one in part and failure.other in part]
        over = by_circuit(found, overbooked_before(lines))
        places, names = positions.positions(given, [(failure.one, failure.other) for failure in found], "draw-failures")
        print(*failures_picture(given.title, found, over, places, names), sep="\n")
    except (Refused, ValueError, OSError) as fault:
        return failed("draw-failures", fault)
    return 0
