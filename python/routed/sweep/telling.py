"""How a sweep is printed: its lines with the names of their routers behind them, one line of JSON, or a table of CSV."""
from __future__ import annotations

import csv
import io
import json
from collections.abc import Iterable, Iterator, Sequence
from typing import Any

from ..front.naming import Naming
from ..model.names import Names
from ..model.rows import Request, is_address
from .ranking import Words

THINGS = "request", "tunnel"
COLUMNS = ["scenario", "out", "effect", "id", "outcome", "from", "interface", "to", "priority", "cost", "was", "more", "asked", "above",
           "unreserved", "counted", "left", "capacity", "before", "worst"]  # of CSV


def in_lines(chunks: Iterable[str], names: Names) -> Iterator[str]:
    """The lines of a sweep, each with the names of its routers behind it."""
    naming = Naming(names, {})
    for chunk in chunks:
        yield "".join(f"{naming.line(line) if names else line}\n" for line in chunk.split("\n"))


class Facts:
    """Reads lines as records, in which routers have their names, too, and requests their ends."""

    def __init__(self, names: Names, requests: Iterable[Request]) -> None:
        self.names, self.requests = names, {request.id: request for request in requests}

    def read(self, line: str) -> tuple[str, dict[str, Any]]:
        """What a line is of, which is empty for counts, and its record. Of ranked lines the words behind `out` are left out."""
        words, kinds, found = line.removeprefix("before ").split(), list[str](), dict[str, Any]()
        for at, (last, word) in enumerate(zip(["", *words], words)):
            name, is_value, value = word.partition("=")
            if is_value:
                found[name] = float(value) if "." in value else int(value)
            elif last == "scenario":
                found[last] = int(word)
            elif last in THINGS:
                found.update(self.ends(int(word)))
            elif is_address(word):
                if "router" not in found:
                    found.update(self.link(words[at:at + 4]))
            elif word == "out" and kinds:
                break
            elif word not in ("scenario", *THINGS) and not word.isdigit():  # a rank: ranked lines come in their order
                kinds.append(word)
        if len(kinds) > 1 and kinds[0] not in ("most", "out"):
            found["outcome"] = kinds.pop()
        return " ".join(kinds), found

    def ends(self, name: int) -> dict[str, Any]:
        request = self.requests[name]
        return {"id": name, "from": self.names.name_of(request.head), "to": self.names.name_of(request.tail)}

    def link(self, words: list[str]) -> dict[str, str]:
        """A link; a router where the line has no more than its address."""
        router, *rest = words
        found = {"router": router, "name": self.names.name_of(router)}
        if rest:
            local, neighbor, remote = rest
            found |= {"interface": local, "neighbor": neighbor, "neighbor_name": self.names.name_of(neighbor), "remote": remote}
        return found

    def grouped(self, lines: Iterable[str], *lists: str) -> dict[str, Any]:
        """The records of lines by what they are of, and their counts. These lists are there also if they are empty."""
        found: dict[str, Any] = {name: [] for name in lists} | {"counts": {}}
        for line in lines:
            kind, record = self.read(line)
            what, _, thing = kind.partition(" ")
            if what not in ("most", "utilisation") and "scenario" in record:
                found["scenario"] = record.pop("scenario")
            if not what:
                found["counts"] |= record
            elif what == "out":
                found["out"].append({"kind": thing, **record})
            elif what == "partners":
                found[what] = record
            else:
                found.setdefault(kind.replace(" ", "_"), []).append(record)
        return found


def in_json(chunks: Iterator[str], facts: Facts, said: Words) -> Iterator[str]:
    """One line of JSON, scenario by scenario. It is no JSON before its end."""
    first, *before = next(chunks).split("\n")
    yield f'{{"network": {dumped(facts.read(first)[1])}, "before": {dumped(facts.grouped(before, "without", said.full))}, "scenarios": ['
    between, rest = "", list[str]()
    for chunk in chunks:
        if chunk.startswith("scenario "):
            yield between + dumped(facts.grouped(chunk.split("\n"), "out", "lost", said.other, said.full))
            between = ", "
        else:
            rest.append(chunk)
    yield f"], {dumped(facts.grouped(rest))[1:]}\n"


def dumped(value: object) -> str:
    return json.dumps(value, ensure_ascii=False)


def in_csv(chunks: Iterable[str], facts: Facts) -> Iterator[str]:
    """A table with a row for each effect before a failure and of one, and for the utilisation of each link. Counts are left out."""
    yield row_of(COLUMNS)
    for chunk in chunks:
        out = ""
        for line in chunk.split("\n"):
            kind, record = facts.read(line)
            failed = " ".join(facts.names.name_of(word) for word in part_in(line).split())
            if kind.startswith("out "):
                out += f" and {failed}" if out else failed
            elif kind.partition(" ")[0] not in ("", "network", "most", "partners"):
                if "id" in record:
                    record.pop("interface", None)  # of a circuit that each way has, which `out` names
                elif "router" in record:
                    record |= {"from": record["name"], "to": record["neighbor_name"]}
                record |= {"effect": kind, "out": failed or out}
                yield row_of([record.get(column, "") for column in COLUMNS])


def part_in(line: str) -> str:
    """What is out, and of a route without a partner the circuit or the router without which it has no way."""
    for begin, kind in ((" out ", ""), (" by ", "circuit "), (" through ", "router ")):
        if begin in line:
            return kind + line.partition(begin)[2]
    return ""


def row_of(fields: Sequence[object]) -> str:
    text = io.StringIO()
    csv.writer(text, lineterminator="\n").writerow(fields)
    return text.getvalue()
