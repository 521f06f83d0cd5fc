"""Where the program `routed` is, the files that come with it, and what the tools' command lines share."""
from __future__ import annotations

import argparse
import hashlib
import math
import os
import shutil
import signal
import sys
from collections.abc import Callable
from typing import TYPE_CHECKING

from .model.advice import advised

if TYPE_CHECKING:
    from .front.metrics import Figures

HERE = os.path.dirname(os.path.realpath(__file__))
TOP = os.path.dirname(os.path.dirname(HERE))  # of the source tree, where this file is in one
BUILT = os.path.join(TOP, "crates/routed/out/routed")
IS_TREE = os.path.isfile(os.path.join(TOP, "crates.txt"))
VERSION = "0.9.0"  # of the tools
NAME = "ROUTED_PROGRAM"  # the environment variable
PIPE_CLOSED = 128 + signal.SIGPIPE  # the status of a tool whose lines nobody reads any more
HELP = f"routed (else ${NAME}, else on PATH, else of the source tree)"


def find(option: str | None = None) -> str:
    """The path of `routed`: what an option gives, else what ROUTED_PROGRAM has, else what is on PATH, else where the source
    tree builds it. It isn't checked that the file exists."""
    return option or os.environ.get(NAME) or shutil.which("routed") or (BUILT if IS_TREE else "routed")


def add_option(parser: argparse.ArgumentParser) -> None:
    """The option --program, the same for all tools. `find` takes what it gives."""
    parser.add_argument("--program", metavar="FILE", help=HELP)


def failed(name: str, why: object, status: int = 1, advice: str = "") -> int:
    """Says on standard error why a tool can't go on and what to do, and returns its status. A closed pipe, behind which nobody reads any
    more, has no line."""
    if isinstance(why, BrokenPipeError):
        return PIPE_CLOSED
    if isinstance(why, OSError) and why.strerror:
        why = f"{why.filename}: {why.strerror}" if why.filename is not None else why.strerror
    print(f"{name}: {why}; {advice}" if advice else advised(f"{name}: {why}"), file=sys.stderr)
    return status


def number(name: str, low: float, high: float = math.inf, form: Callable[[str], float] = int) -> Callable[[str], float]:
    """What reads an option's number from `low` to `high`; usage names it so."""
    def read(text: str) -> float:
        value = form(text)
        if not low <= value <= high:
            raise ValueError
        return value

    read.__name__ = name
    return read


def hint(path: str) -> str:
    """What a message adds where the program of the source tree isn't built."""
    return " (README.md says how it is built)" if path == BUILT else ""


def logic(path: str) -> str:
    """The logic of the kit that built a program, as `rt version` printed it. It is `unknown` if no record beside the program, or where
    `make install` puts one, has the SHA-256 of this program."""
    found = os.path.realpath(shutil.which(path) or path)
    for record in ("logic", "../lib/routed/logic"):
        try:
            with open(os.path.join(os.path.dirname(found), record), encoding="ascii") as file:
                word, wanted = file.read().split()
            with open(found, "rb") as built:
                if hashlib.file_digest(built, "sha256").hexdigest() == wanted:
                    return word
        except (OSError, ValueError):
            continue
    return "unknown"


def build_info(figures: Figures, path: str) -> None:
    """Adds the figure that names the version of the tools, and the logic of a program."""
    figures.info("routed_build_info", "The version of the tools, and the logic of the kit that built the program.",
                 {"version": VERSION, "logic": logic(path)})


def examples() -> str:
    """The folder of the examples: of the source tree, else where they are installed."""
    return os.path.join(TOP, "examples") if IS_TREE else os.path.normpath(os.path.join(HERE, "../../../../share/routed/examples"))
