"""How far a long run is, and how long the rest will take: one line on standard error, where that is a terminal."""
import sys
import time
from typing import Any

OFTEN = 0.5  # seconds between two lines
ERASE = "\r\033[K"


class Progress:
    """`with` it, each step is one more of `total`. What is printed meanwhile comes between `make_room` and `step`."""

    def __init__(self, total: int, name: str = "sweep", unit: str = "scenarios") -> None:
        self.name, self.unit = name, unit
        self.total, self.done, self.begun, self.next = total, 0, time.monotonic(), 0.0
        self.is_shown, self.is_beside_lines = sys.stderr.isatty(), sys.stdout.isatty()

    def __enter__(self) -> "Progress":
        self.show()
        return self

    def __exit__(self, *_: Any) -> None:
        self.write(ERASE)

    def make_room(self) -> None:
        if self.is_beside_lines:
            self.write(ERASE)

    def step(self, count: int = 1) -> None:
        self.done += count
        if self.is_beside_lines or time.monotonic() >= self.next:
            self.show()

    def show(self) -> None:
        self.next = time.monotonic() + OFTEN
        seconds = (time.monotonic() - self.begun) / max(self.done, 1) * (self.total - self.done)
        left = f"{seconds:.0f} s" if seconds < 120 else f"{seconds / 60:.0f} min"
        self.write(f"{ERASE}{self.name}: {self.done} of {self.total} {self.unit}" + (f", {left} left" if self.done else ""))

    def write(self, text: str) -> None:
        if self.is_shown:
            print(text, end="", file=sys.stderr, flush=True)
