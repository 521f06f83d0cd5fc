"""Reads GraphML as the Topology Zoo has it: nodes with Latitude, Longitude and label, edges with their speed. Other data are counted."""
from __future__ import annotations

import collections
import re
import xml.etree.ElementTree as xml
from xml.etree.ElementTree import Element

from .imported import Circuit, Found, number
from .speeds import unit_of

SITE, EDGE = ("label", "latitude", "longitude"), ("linkspeedraw", "linkspeed", "linkspeedunits")
Keys = dict[str | None, Element]
SPEED = re.compile(r"([0-9]+(?:\.[0-9]+)?)\s*([^0-9.\s].*)?")
ALIKE = 0.01  # by what part of one the two speeds of an edge may differ


def read(data: bytes) -> Found:
    """What the file's first graph has."""
    try:
        root = xml.fromstring(data)
    except (xml.ParseError, LookupError, ValueError) as fault:
        raise ValueError(f"no XML: {fault}") from None
    if plain(root) != "graphml":
        raise ValueError(f"no GraphML: the document is a {plain(root)}")
    keys = {key.get("id"): key for key in root.findall("{*}key")}
    graphs = root.findall("{*}graph")
    if not graphs:
        raise ValueError("no graph is there")
    found = Found()
    graph = graphs[0]
    found.left["graph after the first"] += len(graphs) - 1
    for node in graph.findall("{*}node"):
        site(node, keys, found)
    for where, edge in paired([circuit(it, keys, graph.get("edgedefault") == "directed", found) for it in graph.findall("{*}edge")]):
        found.add(where, "link", found.circuits, edge)
    found.left.update(f"{name_of(it, keys)} of the graph" for it in graph.findall("{*}data"))
    found.left.update(plain(it) for it in graph if plain(it) not in ("node", "edge", "data", "desc"))
    return found


def plain(element: Element) -> str:
    """Its kind, without the name space."""
    return element.tag.rpartition("}")[2]


def name_of(data: Element, keys: Keys) -> str:
    key = keys.get(data.get("key"))
    return (key is not None and key.get("attr.name")) or data.get("key") or "data"


def data_of(element: Element, kind: str, wanted: tuple[str, ...], keys: Keys, found: Found) -> dict[str, str]:
    """The data of a node or an edge that are wanted, by their names in small letters; the others are counted."""
    values = {}
    for key in keys.values():
        default = key.findtext("{*}default")
        if default and key.get("for") in (kind, "all"):
            values[(key.get("attr.name") or "").lower()] = default.strip()
    for it in element:
        name = name_of(it, keys) if plain(it) == "data" else plain(it)
        if plain(it) == "data" and name.lower() in wanted:
            values[name.lower()] = "".join(it.itertext()).strip()
        elif plain(it) != "desc":
            found.left[f"{name} of {'a node' if kind == 'node' else 'an edge'}"] += 1
    return values


def number_of(where: str, values: dict[str, str], name: str) -> float | None:
    """The number of that name, None where there is none."""
    return number(values[name], f"{where}: {name} is no number: {values[name]}") if values.get(name) else None


def site(node: Element, keys: Keys, found: Found) -> None:
    name = node.get("id")
    if not name:
        raise ValueError("a node has no id")
    where = f"node {name}"
    values = data_of(node, "node", SITE, keys, found)
    east, north = number_of(where, values, "longitude"), number_of(where, values, "latitude")
    found.add_site(where, name, values.get("label", ""), None if east is None or north is None else (east, north))


def circuit(edge: Element, keys: Keys, is_directed: bool, found: Found) -> tuple[str, Circuit]:
    one, other = str(edge.get("source")), str(edge.get("target"))
    where = f"edge {one} {other}"
    values = data_of(edge, "edge", EDGE, keys, found)
    raw, bytes_per_second = number_of(where, values, "linkspeedraw"), speed_of(where, values, found)
    if raw is not None:
        if bytes_per_second is not None and abs(bytes_per_second * 8 - raw) > ALIKE * abs(raw):
            found.left["LinkSpeed that differs from LinkSpeedRaw, which is taken"] += 1
        bytes_per_second = raw / 8
    if bytes_per_second is not None and bytes_per_second < 0:
        raise ValueError(f"{where}: a speed is below 0")
    found.left["id of an edge"] += bool(edge.get("id"))
    is_both = not {"true": True, "false": False}.get(edge.get("directed", ""), is_directed)
    return where, Circuit(one, other, is_both, bytes_per_second, bytes_per_second, None)


def speed_of(where: str, values: dict[str, str], found: Found) -> float | None:
    """The bytes per second of LinkSpeed and LinkSpeedUnits; None where LinkSpeed isn't there or is no number."""
    text, unit = values.get("linkspeed", ""), values.get("linkspeedunits", "")
    speed = SPEED.fullmatch(text)
    if not speed:
        found.left["LinkSpeed that can't be read"] += bool(text)
        return None
    if speed[2] and unit:
        raise ValueError(f"{where}: the speed {text} has a unit, and LinkSpeedUnits is {unit}")
    found.left["unit of LinkSpeed, which is taken as bits per second, since there is none"] += not (speed[2] or unit)
    try:
        return float(speed[1]) * unit_of(speed[2] or unit)
    except ValueError as fault:
        raise ValueError(f"{where}: {fault}") from None


def paired(edges: list[tuple[str, Circuit]]) -> list[tuple[str, Circuit]]:
    """The edges, each two that are directed there and back made one circuit, at the place of the first."""
    circuits: list[tuple[str, Circuit]] = []
    waiting: dict[tuple[str, str], list[int]] = collections.defaultdict(list)
    for where, edge in edges:
        if not edge.is_both and (back := waiting[edge.other, edge.one]):
            first, there = circuits[back[0]]
            circuits[back.pop(0)] = first, there._replace(is_both=True, back=edge.capacity)
            continue
        if not edge.is_both:
            waiting[edge.one, edge.other].append(len(circuits))
        circuits.append((where, edge))
    return circuits
