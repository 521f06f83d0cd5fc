"""Draws a network as SVG: routers, circuits, and the routes of replies.

The rows are those of a journal or of a stream of `routed solve`; asks are skipped, and so are
changes after the last end row. A row or a batch that `routed` refuses is refused. The picture goes to standard output.
"""
from __future__ import annotations

import argparse
import itertools
import math
import re
from collections.abc import Iterable, Iterator
from typing import NamedTuple

from ..model.advice import not_rows, open_quote
from ..model.database import Database
from ..model.journals import read_database
from ..model.names import NamesRefused
from ..model.pairs import PairReply
from ..model.rows import Key, Link, Refused, Reply, Request, rank
from ..program import failed, number
from ..sweep.swept import Overbooked, overbooked_before
from . import positions, shapes
from .canvas import BLUE, GRAY, GREEN, ORANGE, PURPLE, RED, SKY, YELLOW, Note, fit, picture
from .labels import Sheet
from .layout import Places
from .positions import Names
from .shapes import Curve

ANY = Request(0, "", "")  # which each link has enough for
GROUP_COLORS = [BLUE, ORANGE, GREEN, PURPLE, SKY, YELLOW, GRAY]
GROUP_DASHES = ["", "9 4", "3 3"]
# Each route has a color and dashes that no other has, and none of the groups' colors. The two ways of a pair have one color.
ROUTE_STYLES = [(color, dash) for dash in ("", "11 4") for color in (RED, "#000000", "#a0148c")]
LANES = [6.5, -6.5, 10.5, -10.5, 14.5, -14.5]  # how far to the right of a circuit a route is drawn
THINNEST, WIDEST = 1.5, 7.0  # pixels of a circuit
SMALLER = 0.4  # what these are multiplied by in a large network
MOST_BARE = 400  # links, from which on it is there
UNDER = "stroke:#fff;stroke-width:7;stroke-linejoin:round"  # white under a route, so that it is seen on many circuits

Line = tuple[Link, Link | None]  # what is drawn as one: a circuit, whose directions are in the same groups, or a link of one way
Full = dict[str, list[Overbooked]]  # what is overbooked, by a link's name
Style = tuple[str, str]  # a color and dashes


class Route(NamedTuple):
    """A reply's first words, the links of its route, and how this is drawn."""

    reply: str
    links: list[Link]
    style: Style


class Shared(NamedTuple):
    """The first words of a pair that isn't there, the key of a link that each way has and both its ends, or of a router that each way
    passes and this router, and how it is drawn."""

    reply: str
    key: Key
    ends: tuple[str, ...]
    style: Style


def walks_of(database: Database, reply: Reply | None, line: str) -> list[list[Link]]:
    """The links of a reply's route: each leads to the next address of its object, and has its reverse. They pass through no mark. Where
    links to one address leave several routers, there may be several such walks."""
    if not reply or reply.why:
        raise ValueError(f"no route in the reply: {line}")
    first, *others = reply.fars
    firsts = [link for (_, far), links in database.towards.items() if far == first for link in links.values()]
    walks = [[link] for link in sorted(firsts, key=lambda link: rank(link.key)) if not database.why_not(link, ANY, False)]
    for far in others:
        walks = [[*walk, link] for walk in walks
                 for link in sorted(database.usable(walk[-1].neighbor, far, ANY, True), key=lambda link: rank(link.key))]
    walks = [walk for walk in walks if sum(link.metric for link in walk) == reply.cost]
    if not walks:
        raise ValueError(f"the network has no such route: {line}")
    return walks


def ends_of(walk: list[Link]) -> tuple[str, str]:
    """Where a walk begins and where it ends."""
    return walk[0].router, walk[-1].neighbor


def ways_of(database: Database, pair: PairReply, line: str) -> list[list[Link]]:
    """The links of both ways of a pair, which have the same ends."""
    for both in itertools.product(*(walks_of(database, way, line) for way in pair.ways)):
        if len({ends_of(walk) for walk in both}) == 1:
            return list(both)
    raise ValueError(f"the network has no such pair: {line}")


def shared_ends(database: Database, key: Key, line: str) -> tuple[str, ...]:
    """Both ends of the link that each way has, or the router that each way passes."""
    if not key:
        raise ValueError(f"no route in the reply: {line}")
    links = [link for link in database.links() if key in (link.key, link.key[:1])]
    if not links:
        raise ValueError(f"the network has no such {'link' if len(key) == 2 else 'router'}: {line}")
    return (links[0].router, links[0].neighbor)[:len(key)]


def styles_of(counts: list[int]) -> list[list[Style]]:
    """The styles of replies that have so many routes each. Pairs take theirs first, so that both ways have one color."""
    left, found = list(ROUTE_STYLES), [list[Style]() for _ in counts]
    for at in sorted(range(len(counts)), key=lambda at: -counts[at]):
        found[at] = [style for style in left if style[0] == left[0][0]] if counts[at] == 2 else left[:1]
        left = [style for style in left if style not in found[at]]
    return found


def read_routes(asked: argparse.Namespace, database: Database) -> tuple[list[Route], list[Shared]]:
    """The routes of the replies that are asked for, and what there is in place of pairs. In the lines of a book these are the last routes
    that it placed."""
    with open(asked.replies) as lines:
        replies = {line.split()[1]: line.strip() for line in lines if re.match(r"(?:ask|except|pair) \d|place \d+ v\d+ route ", line)}
    absent = [ask for ask in asked.ask if ask not in replies]
    if absent:
        raise ValueError(f"no reply to {absent[0]}")
    wanted = [(replies[ask], PairReply.parse(replies[ask])) for ask in asked.ask]
    counts = [len(pair.ways) if pair and pair.ways else 1 for _, pair in wanted]
    if sum(counts) > len(ROUTE_STYLES):
        raise ValueError(f"at most {len(ROUTE_STYLES)} routes")
    routes, shared = list[Route](), list[Shared]()
    for (line, pair), styles in zip(wanted, styles_of(counts)):
        begun = " ".join(line.split()[:3])
        if not pair:
            routes.append(Route(begun, walks_of(database, Reply.parse(line), line)[0], styles[0]))
        elif pair.ways:
            for name, walk, style in zip(("first", "second"), ways_of(database, pair, line), styles):
                routes.append(Route(f"{begun}, {name} way", walk, style))
        else:
            shared.append(Shared(begun, pair.each, shared_ends(database, pair.each, line), styles[0]))
    return routes, shared


def read_overbooked(path: str, database: Database) -> Full:
    """What is overbooked, by the lines of a sweep of this network."""
    with open(path) as file:
        lines = file.read().splitlines()
    if not any(line.startswith("before routes=") for line in lines):
        raise ValueError(f"overbooked: {path} has no lines of a sweep")
    found = overbooked_before(lines)
    absent = sorted(set(found) - {link.name for link in database.links()})
    if absent:
        raise ValueError(f"overbooked: the network has no link {absent[0]}")
    return found


def lines_of(database: Database) -> list[Line]:
    lines: list[Line] = []
    for link in sorted(database.links(), key=lambda link: link.key):
        back = database.reverse(link)
        if not back or back.group != link.group:
            lines.append((link, None))
        elif link.key < back.key:
            lines.append((link, back))
    return lines


def groups_of(lines: list[Line]) -> dict[int, tuple[str, str]]:
    """The color and the dashes of each group that a link has."""
    return {group: (GROUP_COLORS[at % len(GROUP_COLORS)], GROUP_DASHES[at // len(GROUP_COLORS) % len(GROUP_DASHES)])
            for at, group in enumerate(sorted({link.group for link, _ in lines}))}


def most_free(lines: list[Line], priority: int) -> int:
    return max((one.unreserved[priority] for pair in lines for one in pair if one), default=0)


def width_of(free: int, most: int) -> float:
    return THINNEST + (WIDEST - THINNEST) * math.sqrt(free / most) if most else THINNEST


def lanes_of(routes: list[Route]) -> list[float]:
    """Beside which side of its circuits each route is, so that no two are on one line."""
    lanes: list[float] = []
    for route in routes:
        keys = {link.key for link in route.links}
        beside = [(link, lane) for other, lane in zip(routes, lanes) for link in other.links]
        taken = {lane for link, lane in beside if link.key in keys} | {-lane for link, lane in beside if link.back in keys}
        lanes.append(next((lane for lane in LANES if lane not in taken), LANES[-1]))
    return lanes


def about(link: Link, back: Link | None, names: Names, priority: int, overbooked: Full) -> str:
    """What is said of a circuit where the pointer is on it."""
    says = [f"{names[link.router]} – {names[link.neighbor]}" if back else f"{names[link.router]} to {names[link.neighbor]}, one way"]
    for one in filter(None, (link, back)):
        says.append(f"{one.local} to {one.remote}: metric {one.metric:,}, group 0x{one.group:x}, "
                    f"{one.unreserved[priority]:,} bytes per second unreserved at priority {priority}")
        says += [f"overbooked at priority {it.priority}: {it.asked:,} bytes per second are asked of {it.unreserved:,}"
                 for it in overbooked.get(one.name, ())]
    return "\n".join(says)


def circuits(lines: list[Line], curves: list[Curve], names: Names, priority: int, overbooked: Full, opacity: str,
             thinner: float) -> Iterator[str]:
    """The circuits and the links of one way; those that are overbooked have a band under them."""
    for (link, back), line in zip(lines, curves):
        if any(one.name in overbooked for one in (link, back) if one):
            yield shapes.line("band", line.path(), shapes.BAND)
    most, groups = most_free(lines, priority), groups_of(lines)
    for (link, back), line in zip(lines, curves):
        free = min(one.unreserved[priority] for one in (link, back or link))
        color, dash = groups[link.group]
        dashes = (dash or "none") if free else "1 5"
        style = f"stroke:{color};stroke-width:{width_of(free, most) * thinner:.1f};stroke-dasharray:{dashes}{opacity}"
        yield shapes.line("circuit" if back else "one-way", line.path(), style, about(link, back, names, priority, overbooked))
        if not back:
            yield shapes.arrow(line, "#444", 0.8)


def route_lines(routes: list[Route], at: dict[Key, Curve], sheet: Sheet, names: Names) -> Iterator[str]:
    """Each route as one line beside its circuits, with an arrow on each of its links. Links that aren't drawn are left out."""
    for route, lane in zip(routes, lanes_of(routes)):
        color, dash = route.style
        ways, path, is_on = [], "", False
        for link in route.links:
            if link.key in at:
                ways.append(at[link.key].aside(lane))
                path += ways[-1].path("L" if is_on else "M")
            is_on = link.key in at
        if not ways:
            continue
        style = f"stroke:{color};stroke-width:3;stroke-linejoin:round;stroke-dasharray:{dash or 'none'}"
        if len(at) >= MOST_BARE:
            yield shapes.line("under", path, UNDER)
        yield shapes.line("route", path, style, route_text(route, names))
        for way in ways:
            sheet.line(way.points(), 2)
            yield shapes.arrow(way, color)


def route_text(route: Route, names: Names) -> str:
    cost, count = sum(link.metric for link in route.links), len(route.links)
    one, other = ends_of(route.links)
    return (f"{route.reply}: {names.get(one, one)} to {names.get(other, other)}, "
            f"cost {cost:,}, {count} {'link' if count == 1 else 'links'}")


def shared_text(it: Shared, names: Names) -> str:
    has = "passes" if len(it.ends) == 1 else "has the circuit"
    return f"{it.reply}: no pair, each way {has} {' – '.join(names.get(router, router) for router in it.ends)}"


def shared_circuits(shared: list[Shared], at: dict[Key, Curve], names: Names) -> Iterator[str]:
    """Two lines along each circuit that each way of a pair has, which leave its own line and its routes free."""
    for it in shared:
        if it.key in at:
            path, (wide, white) = at[it.key].path(), shapes.two_lines(*it.style)
            yield shapes.line("each", path, wide, shared_text(it, names))
            yield shapes.line("under", path, white)


def marks_of_routes(routes: list[Route], shared: list[Shared], places: Places) -> tuple[list[str], dict[str, float]]:
    """The rings and diamonds at the ends of routes, the squares at routers that each way passes, and the radius of what is at each
    router."""
    radii: dict[str, float] = dict.fromkeys(places, shapes.NUMBERED)
    shown = []
    marks = [(router, shape, inside, route.style) for route in routes
             for router, shape, inside in zip(ends_of(route.links), (shapes.ring, shapes.diamond), (10, 14))]
    for router, shape, inside, style in [*marks, *((it.ends[0], shapes.square, 10, it.style) for it in shared if len(it.ends) == 1)]:
        if router not in places:
            continue
        radius = max(inside, radii[router] + 4 if radii[router] > shapes.NUMBERED else 0)
        shown.append(shape(*places[router], radius, *style))
        radii[router] = radius + 1
    return shown, radii


def notes_of_circuits(lines: list[Line], priority: int, opacity: str, thinner: float) -> list[Note]:
    """The legend of groups and widths."""
    if not lines:
        return [(None, "The network has no routers.")]
    notes: list[Note] = [(shapes.sample(f"stroke:{color};stroke-dasharray:{dash or 'none'};stroke-width:4{opacity}"),
                          f"group 0x{group:x}" if group else "no group (0x0)") for group, (color, dash) in groups_of(lines).items()]
    notes.append((shapes.sample(f"stroke:#444;stroke-width:{WIDEST * thinner:g}"),
                  f"widest: {most_free(lines, priority):,} bytes per second unreserved at priority {priority}; dotted: none"))
    if not all(back for _, back in lines):
        notes.append((shapes.one_way_sample, "one direction alone, or in other groups than its reverse"))
    return notes


def notes_of_routes(routes: list[Route], names: Names) -> list[Note]:
    """The legend of routes."""
    notes: list[Note] = [(shapes.sample(f"stroke:{color};stroke-dasharray:{dash or 'none'};stroke-width:3"), route_text(route, names))
                         for route in routes for color, dash in (route.style,)]
    ends: list[Note] = [(lambda x, y: shapes.ring(x, y, 9, RED), "ring: where a route begins"),
                        (lambda x, y: shapes.diamond(x, y, 11, RED), "diamond: where it ends")]
    return notes + ends if routes else []


def notes_of_shared(shared: list[Shared], names: Names) -> list[Note]:
    """The legend of what each way of a pair has."""
    return [((shapes.square_sample if len(it.ends) == 1 else shapes.two_lines_sample)(*it.style), shared_text(it, names))
            for it in shared]


def network_picture(title: str, database: Database, places: Places, names: Names, routes: list[Route], shared: list[Shared],
                    priority: int, overbooked: Full) -> Iterable[str]:
    """The lines of the whole picture, which has the links between routers that have places."""
    places, wide, high = fit(places)
    thinner, faint = (1.0, 0.5) if len(places) < shapes.MANY else (SMALLER, 0.3)
    lines = [line for line in lines_of(database) if line[0].router in places and line[0].neighbor in places]
    marks, sheet, opacity = database.marks(), Sheet(wide, high), f";stroke-opacity:{faint}" if routes or shared else ""
    curves, at = shapes.curves([(link.router, link.neighbor) for link, _ in lines], places), {}
    for (link, back), line in zip(lines, curves):
        at[link.key] = line
        if back:
            at[back.key] = line.reversed()
    drawn = [*shared_circuits(shared, at, names), *circuits(lines, curves, names, priority, overbooked, opacity, thinner),
             *route_lines(routes, at, sheet, names)]
    ends, radii = marks_of_routes(routes, shared, places)
    first = {router for ends in (*(ends_of(route.links) for route in routes), *(it.ends for it in shared)) for router in ends}
    shapes.place_names(sheet, places, names, radii, curves, first.intersection(places))
    routers, unnamed = shapes.routers(sheet, places, names, marks)
    notes = notes_of_circuits(lines, priority, opacity, thinner)
    if overbooked:
        notes.append((shapes.sample(shapes.BAND), "overbooked: more is asked of it than it has unreserved"))
    if not marks.isdisjoint(places):
        notes.append((lambda x, y: shapes.router(x, y, True), "no transit: no route passes through it"))
    notes += notes_of_routes(routes, names) + notes_of_shared(shared, names)
    return picture(title, wide, high, [*drawn, *ends, *routers], [*notes, *unnamed])


def options(words: list[str] | None) -> argparse.Namespace:
    asked = argparse.ArgumentParser(prog="routed-tools draw", description=__doc__.split("\n\n")[0])
    asked.add_argument("rows", help="the file of rows or the journal")
    asked.add_argument("--version", type=number("version", 0), metavar="N", help="the network after batch N, by default the last")
    asked.add_argument("--replies", metavar="FILE", help="reply lines of routed, or the lines of a book")
    asked.add_argument("--ask", action="append", default=[], metavar="ID",
                       help=f"draw the route of this reply, or both ways of this pair; at most {len(ROUTE_STYLES)} routes")
    asked.add_argument("--overbooked", metavar="FILE",
                       help="lines of a sweep: mark the links that it says are overbooked while nothing fails")
    positions.add_options(asked)
    asked.add_argument("--priority", type=int, choices=range(8), default=0,
                       help="the priority whose unreserved bandwidth is the width of circuits")
    asked.add_argument("--title", default="Network")
    given = asked.parse_args(words)
    if given.ask and not given.replies:
        asked.error("--ask needs --replies, the lines that it is one of")
    if given.replies and not given.ask:
        asked.error("--replies needs --ask, which says whose route is drawn")
    return given


def main(words: list[str] | None = None) -> int:
    """Takes the words of a command line, and answers the status."""
    asked = options(words)
    try:
        with open(asked.rows, "rb") as rows:
            data = rows.read()
        if told := not_rows(data):
            raise Refused(told)
        database = read_database(data, asked.version, has_asks=True)
        routes, shared = read_routes(asked, database) if asked.replies else ([], [])
        overbooked = read_overbooked(asked.overbooked, database) if asked.overbooked else {}
        pairs = [(link.router, link.neighbor) for link in database.links()]
        part = positions.part_of(asked, pairs)
        if part is not None:
            pairs = [pair for pair in pairs if part.issuperset(pair)]
        places, names = positions.positions(asked, pairs, "draw")
        print(*network_picture(asked.title, database, places, names, routes, shared, asked.priority, overbooked), sep="\n")
    except NamesRefused as fault:
        return failed("draw", fault)
    except Refused as fault:
        return failed("draw", f"{asked.rows}: {fault}{open_quote(data)}")
    except (OSError, ValueError) as fault:
        return failed("draw", fault)
    return 0
