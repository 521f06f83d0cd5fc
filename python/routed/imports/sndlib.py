"""Reads SNDlib's native format: the sections NODES, LINKS and DEMANDS, and the unit that META names. What else the file has has no place in
a row, and is counted."""
from __future__ import annotations

import collections
import re

from .imported import Circuit, Demand, Found, number
from .speeds import unit_of

HEAD = "?SNDlib native format"
MBIT = 125_000  # bytes per second


class Tokens:
    """The words and the brackets of a text, each with the number of its line."""

    def __init__(self, text: str) -> None:
        tokens = [(number, token) for number, line in enumerate(text.splitlines(), 1)
                  for token in re.findall(r"[()]|[^\s(),]+", line.partition("#")[0])]
        self.left = collections.deque([*tokens, (tokens[-1][0] if tokens else 1, "")])  # the last is the end

    @property
    def where(self) -> str:
        return f"line {self.left[0][0]}"

    @property
    def next(self) -> str:
        """The next word or bracket, empty at the end."""
        return self.left[0][1]

    def take(self, is_wanted: bool, what: str) -> str:
        """The next word or bracket, where it is what is wanted."""
        if not self.next or not is_wanted:
            raise ValueError(f"{self.where}: {what} is wanted")
        return self.left.popleft()[1]

    def word(self, what: str) -> str:
        """The next word, which is no bracket."""
        return self.take(self.next not in "()", what)

    def bracket(self, bracket: str) -> None:
        self.take(self.next == bracket, bracket)

    def number(self, what: str) -> float:
        where, word = self.where, self.word(what)
        return number(word, f"{where}: {what} is wanted, not {word}")

    def pass_over(self) -> list[str]:
        """Goes on after the bracket that closes the last open one, and returns the words before it."""
        depth, words = 1, []
        while depth:
            words.append(self.take(True, ")"))
            depth += {"(": 1, ")": -1}.get(words[-1], 0)
        return words[:-1]


def read(data: bytes, unit: float | None) -> Found:
    """What a network's file has. The unit is the bytes per second of one unit of capacity and of demand; None where the file says it."""
    try:
        text = data.decode("utf-8-sig")
    except UnicodeDecodeError as fault:
        raise ValueError(f"byte {fault.start + 1} is no UTF-8") from None
    head, _, rest = text.partition("\n")
    kind = re.search(r"type:\s*(\w+)", head)
    if kind and kind[1] != "network":
        raise ValueError(f"line 1: a network is wanted, not a {kind[1]}")
    tokens, found = Tokens("\n" + rest), Found()
    sections, named = {"NODES": site, "LINKS": circuit, "DEMANDS": demand}, ""
    while tokens.next:
        where, name = tokens.where, tokens.word("a section")
        tokens.bracket("(")
        if name in sections:
            while tokens.next != ")":
                sections[name](tokens, found)
            tokens.bracket(")")
        elif name in ("META", "ADMISSIBLE_PATHS"):
            words = " ".join(tokens.pass_over())
            if name == "META" and (said := re.search(r"(?:^|\s)unit\s*=\s*(.*?)(?=\s+\w+\s*=|$)", words)):
                named, words = said[1].strip(), (words[:said.start()] + words[said.end():]).strip()
            found.left[f"section {name}"] += bool(words)
        else:
            raise ValueError(f"{where}: there is no section {name}")
    measure(found, named, unit)
    price(found)
    return found


def measure(found: Found, named: str, asked: float | None) -> None:
    """Turns units into bytes per second: by what is asked for, else by the unit that the file names, else by Mbit/s."""
    if asked is not None:
        unit = asked
        if named:
            found.said.append(f"unit {named} of the file isn't used: by --unit one unit is {asked:,g} bytes per second")
    elif named:
        try:
            unit = unit_of(named)
        except ValueError as fault:
            raise ValueError(f"{fault}, or give --unit BYTES") from None
        found.said.append(f"unit {named} of the file: one unit is {unit:,.15g} bytes per second")
    else:
        unit = MBIT
        found.said.append("no unit: one unit is taken as 1 Mbit/s, 125,000 bytes per second; --unit says another")
    found.circuits = [it._replace(capacity=it.capacity and it.capacity * unit, back=it.back and it.back * unit) for it in found.circuits]
    found.demands = [it._replace(bandwidth=it.bandwidth * unit) for it in found.demands]


def price(found: Found) -> None:
    """A file in which all routing costs are 0 has none. In another file a routing cost of 0 is one."""
    if found.circuits and not any(circuit.cost for circuit in found.circuits):
        found.circuits = [circuit._replace(cost=None) for circuit in found.circuits]
        found.said.append("no routing cost: it is 0 for each link")


def ends(tokens: Tokens) -> tuple[str, str]:
    """The two sites in brackets."""
    tokens.bracket("(")
    one, other = tokens.word("a source"), tokens.word("a target")
    tokens.bracket(")")
    return one, other


def site(tokens: Tokens, found: Found) -> None:
    where, name = tokens.where, tokens.word("a site")
    place = None
    if tokens.next == "(":
        tokens.bracket("(")
        place = tokens.number("a longitude"), tokens.number("a latitude")
        tokens.bracket(")")
    found.add_site(where, name, name.replace("_", " "), place)


def circuit(tokens: Tokens, found: Found) -> None:
    """What is installed is the capacity; where nothing is, the largest module."""
    where, _, (one, other) = tokens.where, tokens.word("a link"), ends(tokens)
    installed, price, cost, setup = (tokens.number(what) for what in (
        "a pre-installed capacity", "its cost", "a routing cost", "a setup cost"))
    tokens.bracket("(")
    modules = []
    while tokens.next != ")":
        modules.append(tokens.number("a module's capacity"))
        tokens.number("a module's cost")
    tokens.bracket(")")
    if min(installed, cost, *modules) < 0:
        raise ValueError(f"{where}: a number is below 0")
    found.left.update({"id of a link": 1, "cost of what is installed": price != 0, "setup cost": setup != 0,
                       "module of a link": len(modules),
                       "link with nothing installed, whose largest module is taken": not installed and bool(modules)})
    each = installed or max(modules, default=0) or None
    found.add(where, "link", found.circuits, Circuit(one, other, True, each, each, cost))


def demand(tokens: Tokens, found: Found) -> None:
    where, _, (one, other) = tokens.where, tokens.word("a demand"), ends(tokens)
    routing_unit, value, longest = tokens.number("a routing unit"), tokens.number("a demand's value"), tokens.word("a longest path")
    if value < 0 or routing_unit < 0:
        raise ValueError(f"{where}: a number is below 0")
    found.left.update({"id of a demand": 1, "longest path of a demand": longest != "UNLIMITED",
                       "routing unit other than 1, by which the value is multiplied": routing_unit != 1})
    found.add(where, "demand", found.demands, Demand(one, other, value * routing_unit))
