"""Figures of a tool that runs, as Prometheus reads them: its text form 0.0.4."""
from __future__ import annotations

import bisect
import time
from collections.abc import Callable, Iterable, Mapping
from typing import Any

TIMES = (0.0001, 0.00025, 0.0005, 0.001, 0.0025, 0.005, 0.01, 0.025, 0.05, 0.1, 0.25, 0.5, 1, 2.5, 10)  # seconds


class Figures:
    """Figures by their names, each with its help. A figure has a number, or one for each of its labels' values."""

    def __init__(self) -> None:
        self.kinds: dict[str, tuple[str, str, str | None]] = {}
        self.values: dict[str, Any] = {}
        self.asked: dict[str, Callable[[], Any]] = {}
        self.infos: dict[str, str] = {}

    def counter(self, name: str, text: str, label: str | None = None, values: Iterable[str] = ()) -> None:
        self.kinds[name] = "counter", text, label
        self.values[name] = {value: 0 for value in values} if label else {None: 0}

    def gauge(self, name: str, text: str, read: Callable[[], Any], label: str | None = None) -> None:
        """A figure that `read` gives when it is asked for: a number, or a dictionary by the label's values; None leaves it out."""
        self.kinds[name] = "gauge", text, label
        self.asked[name] = read

    def age(self, name: str, text: str, read: Callable[[], float | None]) -> None:
        """The seconds since a time of `time.monotonic` that `read` gives when it is asked for; None leaves it out."""
        self.gauge(name, text, lambda: None if (at := read()) is None else time.monotonic() - at)

    def total(self, name: str, text: str, read: Callable[[], Any], label: str | None = None) -> None:
        """A counter that `read` gives when it is asked for."""
        self.gauge(name, text, read, label)
        self.kinds[name] = "counter", text, label

    def info(self, name: str, text: str, labels: Mapping[str, str]) -> None:
        """The number 1 with labels whose values say something."""
        self.kinds[name] = "gauge", text, None
        self.infos[name] = name + "{" + ",".join(labelled(label, value)[1:-1] for label, value in labels.items()) + "} 1"

    def times(self, name: str, text: str) -> None:
        """A histogram of seconds: a count for each edge of TIMES and one above, and the sum."""
        self.kinds[name] = "histogram", text, None
        self.values[name] = [[0] * (len(TIMES) + 1), 0.0]

    def add(self, name: str, count: int = 1, value: str | None = None) -> None:
        found = self.values[name]
        found[value] = found.get(value, 0) + count

    def take(self, name: str, seconds: float) -> None:
        """Adds a time to a histogram."""
        found = self.values[name]
        found[0][bisect.bisect_left(TIMES, seconds)] += 1
        found[1] += seconds

    def text(self) -> str:
        """All figures in Prometheus' text form."""
        lines = []
        for name, (kind, text, label) in self.kinds.items():
            lines += [f"# HELP {name} {text}", f"# TYPE {name} {kind}"]
            if name in self.infos:
                lines.append(self.infos[name])
                continue
            if kind == "histogram":
                lines += self.histogram(name)
                continue
            found = self.asked[name]() if name in self.asked else self.values[name]
            if label is None:
                found = found if isinstance(found, dict) else {None: found}
            for value, number in sorted(found.items(), key=lambda it: str(it[0])):
                if number is not None:
                    lines.append(f"{name}{labelled(label, value)} {number:.15g}")
        return "\n".join(lines) + "\n"

    def histogram(self, name: str) -> list[str]:
        buckets, whole = self.values[name]
        sums, so_far = [], 0
        for count in buckets:
            so_far += count
            sums.append(so_far)
        edges = [*(f"{edge:g}" for edge in TIMES), "+Inf"]
        return [*(f'{name}_bucket{{le="{edge}"}} {count}' for edge, count in zip(edges, sums)),
                f"{name}_sum {whole:.9g}", f"{name}_count {so_far}"]


def labelled(label: str | None, value: object) -> str:
    if label is None:
        return ""
    value = str(value).replace("\\", "\\\\").replace('"', '\\"').replace("\n", "\\n")
    return f'{{{label}="{value}"}}'
