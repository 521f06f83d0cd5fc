"""Where routers are: by a file of positions, by what was kept of the last picture, else laid out."""
from __future__ import annotations

import argparse
import os
import sys
from collections.abc import Iterable, Iterator

from ..model.names import Names as FileOfNames
from ..model.names import add_names
from ..program import number
from .layout import Place, Places, complete, hops_from, neighbors_of

FARTHEST = 1e12  # of x and y from 0
MANY = 300  # routers
HOPS = 2  # of --around

Names = dict[str, str]  # of routers, by their addresses
Known = tuple[Place, str]  # of a router: where it stands, and its name


def read_places(path: str) -> Iterator[tuple[int, str, Known]]:
    """Where routers stand: the number of the line, the router's address, its place and its name, from an address, x, y and a name in
    each line."""
    seen: set[str] = set()
    with open(path, encoding="utf-8") as lines:
        for at, line in enumerate(lines, 1):
            router, *fields = line.split() or ["#"]
            if router.startswith("#"):
                continue
            try:
                place = float(fields[0]), float(fields[1])
            except (ValueError, IndexError):
                raise ValueError(f"places, line {at}: an address, x and y are wanted") from None
            if not all(abs(axis) <= FARTHEST for axis in place):
                raise ValueError(f"places, line {at}: x and y are at most {FARTHEST:g}")
            if router in seen:
                raise ValueError(f"places, line {at}: {router} is there twice")
            seen.add(router)
            yield at, router, (place, " ".join(fields[2:]) or router)


def add_options(parser: argparse.ArgumentParser) -> None:
    parser.add_argument("--places", metavar="FILE", help="lines of a router's address, x, y and a name; routers without one are laid out")
    parser.add_argument("--keep", metavar="FILE", help="read positions from this file, and add those of new routers to it")
    parser.add_argument("--around", metavar="ROUTER", help="draw only the part round this router, which is a name or an address")
    parser.add_argument("--hops", type=number("number of hops", 1, 1024), metavar="N", help=f"how many hops this part is wide ({HOPS})")
    add_names(parser)


def part_of(asked: argparse.Namespace, circuits: Iterable[tuple[str, str]]) -> set[str] | None:
    """The routers that are drawn, where only a part is."""
    if asked.around is None:
        if asked.hops:
            raise ValueError("--hops needs --around, the router that they are counted from")
        return None
    pairs = list(circuits)
    routers = sorted({router for pair in pairs for router in pair})
    known = names_of(asked, routers)
    middle = [router for router in routers if asked.around in (router, known[router])]
    if len(middle) != 1:
        raise ValueError(f"--around: the network has {len(middle) or 'no'} routers {asked.around}; give the address of one")
    return {router for router, hops in hops_from(middle, neighbors_of(routers, pairs)).items() if hops <= (asked.hops or HOPS)}


def names_of(asked: argparse.Namespace, routers: Iterable[str]) -> Names:
    """The routers' names: those of --names, else those of the files of positions, else their addresses."""
    given = FileOfNames.read(asked.names)
    found: Names = {}
    for path in (asked.keep, asked.places):
        if path and os.path.exists(path):
            found |= {router: name for _, router, (_, name) in read_places(path)}
    return called(routers, given, found)


def called(routers: Iterable[str], given: FileOfNames, found: Names) -> Names:
    """The routers' names: those of a file of names, else those that were found with their positions, else their addresses."""
    return {router: given.names.get(router) or found.get(router) or router for router in routers}


def positions(asked: argparse.Namespace, circuits: Iterable[tuple[str, str]], program: str) -> tuple[Places, Names]:
    """Positions and names of the routers that have circuits. A position of a router that isn't there is said and passed over."""
    pairs = sorted({(min(pair), max(pair)) for pair in circuits})
    routers = sorted({router for pair in pairs for router in pair})
    kept = {router: known for _, router, known in read_places(asked.keep)} if asked.keep and os.path.exists(asked.keep) else {}
    found = {router: kept[router] for router in routers if router in kept}
    for line, router, known in read_places(asked.places) if asked.places else ():
        if router in routers:
            found[router] = known
        elif asked.around is None:
            print(f"{program}: places, line {line}: the network has no router {router}", file=sys.stderr)
    if len(routers) > MANY and len(found) < len(routers) and sys.stderr.isatty():
        print(f"{program}: laying out {len(routers)} routers, which takes some seconds", file=sys.stderr)
    places = complete({router: place for router, (place, _) in found.items()}, routers, pairs)
    names = names_of(asked, routers)
    if asked.keep:
        with open(f"{asked.keep}.new", "w", encoding="utf-8") as file:  # so that it is written whole, or not at all
            new = {router: (places[router], found[router][1] if router in found else router) for router in routers}
            for router, ((x, y), name) in (kept | new).items():
                file.write(f"{router} {x!r} {y!r} {name}\n")
        os.replace(f"{asked.keep}.new", asked.keep)
    return places, names
