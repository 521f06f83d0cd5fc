"""Makes rows of a network in another program's file: SNDlib's native format, or GraphML as the Topology Zoo has it.

The rows go to standard output, as a journal. Sites and circuits have addresses in the order of the file: routers from 192.168.0.1 on,
circuits from 10.0.0.0 on, two addresses each. With --keep a site has the router's address that it had before. What has no place in
a row, and how numbers were read, is listed on standard error.
"""
from __future__ import annotations

import argparse
import collections
import ipaddress
import math
import os
import sys
from collections.abc import Iterable, Iterator

from ..model.advice import format_of
from ..model.journals import in_batches
from ..model.rows import is_address
from ..pictures.positions import read_places
from ..program import failed
from . import graphml, sndlib
from .imported import Circuit, Found, Site

GBIT_10 = 1_250_000_000  # bytes per second
MOST_ROUTERS, MOST_LINKS, MOST_METRIC, MOST_BANDWIDTH = 1024, 16384, 2**32 - 1, 2**64 - 1
ROUTERS, CIRCUITS = ipaddress.IPv4Address("192.168.0.0"), ipaddress.IPv4Address("10.0.0.0")
EARTH = 6371  # km, the mean radius

Routers = dict[str, str]  # the addresses of routers, by their sites


def read(data: bytes, unit: float | None) -> Found:
    """What the file has, by the format that its first bytes are of."""
    if data.removeprefix(b"\xef\xbb\xbf").startswith(sndlib.HEAD.encode()):
        return sndlib.read(data, unit)
    if data.lstrip(b"\xef\xbb\xbf \t\r\n").startswith(b"<") or data[:2] in (b"\xff\xfe", b"\xfe\xff"):
        return graphml.read(data)
    raise ValueError(format_of(data) or "neither SNDlib's native format nor GraphML")


def addresses(found: Found, kept: str | None) -> Routers:
    """Those of the routers. A site whose name is in the kept file has the address of its line; a new one comes behind the last of these."""
    if not kept:
        return {name: str(ROUTERS + at) for at, name in enumerate(found.sites, 1)}
    before = read_kept(kept)
    labels = collections.Counter(site.name for site in found.sites.values())
    if doubled := [label for label, count in labels.items() if count > 1]:
        raise ValueError(f"--keep: {labels[doubled[0]]} sites have the name {doubled[0]}, so none of them can be told from the file")
    numbers = [int(ipaddress.IPv4Address(router)) - int(ROUTERS) for router in before.values()]
    last = max([0, *(number for number in numbers if 0 < number < 1 << 16)])
    routers: Routers = {}
    for name, site in found.sites.items():
        if site.name not in before:
            last += 1
            found.said.append(f"new: the site {site.name} is the router {ROUTERS + last}")
        routers[name] = before.get(site.name) or str(ROUTERS + last)
    found.said += [f"gone: the site {name}, which was the router {router}" for name, router in before.items() if name not in labels]
    return routers


def read_kept(path: str) -> Routers:
    """The routers' addresses by the names of their sites, as an import before wrote them."""
    before: Routers = {}
    for number, router, (_, name) in read_places(path):
        if not is_address(router):
            raise ValueError(f"--keep: line {number}: {router} is no address")
        if name in before:
            raise ValueError(f"--keep: line {number}: the name {name} is there twice")
        before[name] = router
    return before


def is_on_earth(sites: Iterable[Site]) -> bool:
    return all(abs(site.place[0]) <= 180 and abs(site.place[1]) <= 90 for site in sites if site.place)


def kilometers(one: tuple[float, float], other: tuple[float, float]) -> float:
    """Between two longitudes and latitudes, along the great circle."""
    (east, north), (to_east, to_north) = (map(math.radians, place) for place in (one, other))
    half = math.sin((to_north - north) / 2) ** 2 + math.cos(north) * math.cos(to_north) * math.sin((to_east - east) / 2) ** 2
    return 2 * EARTH * math.asin(math.sqrt(min(half, 1)))


def kind_of_metric(found: Found, asked: str | None) -> str:
    """What metrics are: what is asked for, or the routing costs where all links have one, else kilometers where all sites have a
    position, else 1."""
    ends = [found.sites[end] for end in found.linked()]
    lacks = {"cost": not ends or any(circuit.cost is None for circuit in found.circuits),
             "km": not ends or not is_on_earth(ends) or any(site.place is None for site in ends), "one": False}
    if asked and ends and lacks[asked]:
        lacking = {"cost": "a link has no routing cost", "km": "a site has no longitude and latitude"}
        raise ValueError(f"--metric {asked}: {lacking[asked]}")
    return asked or next(kind for kind, is_lacking in lacks.items() if not is_lacking)


def metric_of(circuit: Circuit, sites: dict[str, Site], kind: str) -> int:
    """A routing cost above 0 is at least 1, and so are kilometers."""
    one, other = sites[circuit.one].place, sites[circuit.other].place
    metric = circuit.cost if kind == "cost" else kilometers(one, other) if kind == "km" and one and other else 1
    if kind == "cost" and not metric:
        return 0
    found = max(round(metric or 0), 1)
    if found > MOST_METRIC:
        raise ValueError(f"the routing cost between {circuit.one} and {circuit.other} is {metric:g}, and a row has at most {MOST_METRIC}")
    return found


def rounded_costs(found: Found) -> Iterator[str]:
    """What is said of routing costs that their metrics aren't equal to, or that are 0."""
    costs = [circuit.cost or 0 for circuit in found.circuits]
    changed = [cost for cost in costs if cost and max(round(cost), 1) != cost]
    if changed:
        worst = max(changed, key=lambda cost: abs(max(round(cost), 1) - cost) / cost)
        yield f"rounded: {len(changed)} routing costs, such as {worst:g} to {max(round(worst), 1)}"
    if zero := costs.count(0):
        yield f"routing cost 0: {zero} links, whose metric is 0"


def whole(bandwidth: float, what: str) -> int:
    """A bandwidth that a row may have."""
    if bandwidth > MOST_BANDWIDTH:
        raise ValueError(f"{what} is {bandwidth:g} bytes per second, and a row has at most {MOST_BANDWIDTH}")
    return int(bandwidth)


def puts(found: Found, routers: Routers, kind: str, capacity: int) -> Iterator[str]:
    """The put rows of all links: both directions of a circuit, which is on two addresses of 10.0.0.0/8."""
    for at, circuit in enumerate(found.circuits):
        ends = [(routers[circuit.one], str(CIRCUITS + 2 * at)), (routers[circuit.other], str(CIRCUITS + 2 * at + 1))]
        metric = metric_of(circuit, found.sites, kind)
        for (one, other), given in zip((ends, ends[::-1]), circuit.capacities()):
            free = whole(capacity if given is None else given, f"the capacity between {circuit.one} and {circuit.other}")
            yield f"put,{','.join(one)},{','.join(other)},{metric},0x0,{','.join([str(free)] * 8)}"


def asks(found: Found, routers: Routers, setup: int) -> Iterator[str]:
    for at, demand in enumerate(found.demands, 1):
        bandwidth = math.ceil(demand.bandwidth) if demand.bandwidth <= MOST_BANDWIDTH else whole(demand.bandwidth, f"demand {at}")
        yield f"ask,{at},{routers[demand.one]},{routers[demand.other]},{setup},{bandwidth},0x0,0x0,0x0,"


def places(found: Found, routers: Routers) -> Iterator[str]:
    """Lines of the sites with links and positions, in kilometers to the east and the south where these are longitudes and latitudes."""
    linked = found.linked()
    placed = [(routers[name], *site.place, site.name) for name, site in found.sites.items() if name in linked and site.place]
    if not is_on_earth(found.sites[name] for name in linked):
        yield "# router, east, south, name"
        yield from (f"{router} {east:g} {-north:g} {name}" for router, east, north, name in placed)
        return
    yield "# router, km to the east, km to the south, name"
    top = max((north for _, _, north, _ in placed), default=0.0)
    middle = (top + min((north for _, _, north, _ in placed), default=0.0)) / 2
    degree = math.radians(1) * EARTH
    west, wide = west_of([east for _, east, _, _ in placed])
    for router, east, north, name in placed:
        far = (east - west) % 360 if wide < 360 else east - west
        yield f"{router} {far * degree * math.cos(math.radians(middle)):.1f} {(top - north) * degree:.1f} {name}"


def west_of(longitudes: list[float]) -> tuple[float, float]:
    """The longitude at which a map begins, and how wide it is: behind the widest gap between two, so that no network is cut in two at the
    180th meridian."""
    around = sorted({longitude % 360 for longitude in longitudes})
    if not around:
        return 0, 0
    gaps = [(to - longitude, to) for longitude, to in zip(around, around[1:] + [around[0] + 360])]
    gap, west = max(gaps, key=lambda it: (it[0], -it[1]))
    return west % 360, 360 - gap


def listed(found: Found, asked: argparse.Namespace, kind: str) -> Iterator[str]:
    """What has no place in a row, and what was taken in place of what isn't there."""
    linked = found.linked()
    metrics = {"cost": "the routing costs", "km": "kilometers between the sites", "one": "1"}
    bare = sum(given is None for circuit in found.circuits for given in circuit.capacities())
    yield f"{len(linked)} routers, {len(found.circuits)} circuits, {len(found.demands)} demands; metrics are {metrics[kind]}"
    yield from found.said
    if kind == "cost":
        yield from rounded_costs(found)
    yield from (f"no row: the site {site.name} has no link" for name, site in found.sites.items() if name not in linked)
    yield from (f"no position: the site {site.name}" for name, site in found.sites.items() if not site.place and name in linked)
    if bare:
        yield f"no capacity: {bare} links, which have {asked.capacity:,} bytes per second"
    one_way = sum(not circuit.is_both for circuit in found.circuits)
    if one_way:
        yield f"no reverse: {one_way} links, which carry no route"
    shared = collections.Counter(site.place for name, site in found.sites.items() if site.place and name in linked)
    yield from (f"one position for {count} sites: {place[0]:g} {place[1]:g}" for place, count in shared.items() if count > 1)
    if found.demands and not asked.requests:
        yield f"left out: {len(found.demands)} demands, which --requests FILE writes"
    yield from (f"left out: {what}" + f" ({count} times)" * (count > 1) for what, count in sorted(found.left.items()) if count)


def options(words: list[str] | None) -> argparse.Namespace:
    asked = argparse.ArgumentParser(prog="routed-tools import", description=__doc__, formatter_class=argparse.RawDescriptionHelpFormatter)
    asked.add_argument("network", metavar="FILE", help="the network")
    asked.add_argument("--places", metavar="OUT", help="write the positions of the sites, for draw and draw-failures")
    asked.add_argument("--requests", metavar="OUT", help="write the demands as requests")
    asked.add_argument("--metric", choices=("cost", "km", "one"), help="what a link's metric is: its routing cost, its kilometers, or 1")
    asked.add_argument("--keep", metavar="PLACES", help="give a site the router's address that its name has in this file of positions")
    asked.add_argument("--unit", type=float, metavar="BYTES",
                       help="bytes per second of one unit in SNDlib's format; by default what the file's unit is, else 125000, a Mbit/s")
    asked.add_argument("--capacity", type=int, default=GBIT_10, metavar="BYTES",
                       help="bytes per second of a link without a capacity; by default 1250000000, 10 Gbit/s")
    asked.add_argument("--setup", type=int, choices=range(8), default=7, help="the setup priority of the requests; by default 7")
    given = asked.parse_args(words)
    if given.unit is not None and not 0 < given.unit < math.inf or not 0 <= given.capacity <= MOST_BANDWIDTH:
        asked.error("a number of bytes is out of range")
    return given


def write(path: str, lines: list[str]) -> None:
    """Writes a file whole or not at all, so that one that is kept isn't lost. A path that is no regular file is written as it is."""
    path = os.path.realpath(path)
    is_file = os.path.isfile(path) or not os.path.exists(path)
    with open(f"{path}.new" if is_file else path, "w", encoding="utf-8") as out:
        out.writelines(f"{line}\n" for line in lines)
    if is_file:
        os.replace(f"{path}.new", path)


def main(words: list[str] | None = None) -> int:
    """Takes the words of a command line, and answers the status."""
    asked = options(words)
    try:
        with open(asked.network, "rb") as file:
            found = read(file.read(), asked.unit)
        kind = kind_of_metric(found, asked.metric)
        routers = addresses(found, asked.keep)
        rows, count = list(puts(found, routers, kind, asked.capacity)), len(found.linked())
        if count > MOST_ROUTERS or len(rows) > MOST_LINKS:
            raise ValueError(f"{count} routers and {len(rows)} links are there, and routed takes {MOST_ROUTERS} and {MOST_LINKS}")
        for path, lines in ((asked.places, places(found, routers)), (asked.requests, asks(found, routers, asked.setup))):
            if path:
                write(path, list(lines))
        sys.stdout.writelines(f"{row}\n" for row in in_batches(rows)[0])
        sys.stdout.flush()
    except OSError as fault:
        return failed("import", fault)
    except ValueError as fault:
        return failed("import", f"{asked.network}: {fault}")
    for line in listed(found, asked, kind):
        print(f"import: {line}", file=sys.stderr)
    return 0
