"""What the readers of other programs' networks find: sites, circuits and demands."""
from __future__ import annotations

import collections
import contextlib
import math
from typing import NamedTuple, TypeVar


class Site(NamedTuple):
    name: str
    place: tuple[float, float] | None  # its longitude and latitude


class Circuit(NamedTuple):
    """Two sites, whether it runs both ways, its capacity there and back in bytes per second, and its routing cost."""

    one: str
    other: str
    is_both: bool
    capacity: float | None
    back: float | None
    cost: float | None

    def capacities(self) -> list[float | None]:
        """Those of its links."""
        return [self.capacity, self.back] if self.is_both else [self.capacity]


class Demand(NamedTuple):
    """Two sites, and bytes per second."""

    one: str
    other: str
    bandwidth: float


Between = TypeVar("Between", Circuit, Demand)


def number(text: str, fault: str) -> float:
    """The number of a text; the fault says what is wrong where it has none."""
    with contextlib.suppress(ValueError):
        if math.isfinite(value := float(text)):
            return value
    raise ValueError(fault)


class Found:
    """The sites by their names in the file, the circuits, the demands; and how often what had no place in a row was there."""

    def __init__(self) -> None:
        self.sites: dict[str, Site] = {}
        self.circuits: list[Circuit] = []
        self.demands: list[Demand] = []
        self.left: collections.Counter[str] = collections.Counter()
        self.said: list[str] = []  # how the numbers of the file were read

    def linked(self) -> set[str]:
        """The sites that have a circuit."""
        return {end for circuit in self.circuits for end in (circuit.one, circuit.other)}

    def add_site(self, where: str, name: str, label: str, place: tuple[float, float] | None) -> None:
        if name in self.sites:
            raise ValueError(f"{where}: the site {name} is there twice")
        self.sites[name] = Site(" ".join(label.split()) or name, place)

    def add(self, where: str, what: str, those: list[Between], new: Between) -> None:
        """Adds to the circuits or to the demands one between two sites, which are there; one from a site to itself is counted."""
        for name in (new.one, new.other):
            if name not in self.sites:
                raise ValueError(f"{where}: there is no site {name}")
        if new.one == new.other:
            self.left[f"{what} from a site to itself"] += 1
        else:
            those.append(new)
