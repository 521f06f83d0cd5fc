"""Asks the cspf of FRR and `routed solve` about the same three small networks, and prints what each says.

    routed-tools why --frr DIR [cost|float|ties]

DIR is the unpacked source of FRR 8.4.4. Four files of it are compiled as they are, in a temporary folder and with
the harness why.c, which puts the links of the rows into FRR's database and asks as FRR's own command does. Nothing
is fetched, and nothing is written elsewhere. docs/believe/WHY.md has what was printed, and why.

The status is 0 where all was run, 1 where a part didn't compile, run or end, and 2 where something is missing.
"""
from __future__ import annotations

import argparse
import os
import re
import shutil
import subprocess
import tempfile

from .program import HERE, add_option, examples, failed, find

SECONDS = 10  # of one run
HARNESS = os.path.join(HERE, "why.c")
FILES = ["lib/cspf.c", "lib/linklist.c", "lib/memory.c", "lib/typerb.c"]

# What FRR's configure finds on Linux, as far as these files ask for it.
CONFIG = """
#define _GNU_SOURCE 1
#define GNU_LINUX 1
#define FRR_AUTOCONF_ATOMIC 1
#define HAVE___ATOMIC 1
#define HAVE_MALLOC_H 1
#define HAVE_MALLOC_USABLE_SIZE 1
#define HAVE_STRUCT_IN_PKTINFO 1
#define HAVE_STRUCT_MMSGHDR 1
"""


class Failed(Exception):
    """Why nothing is run, and the status: 1 where a part didn't compile, 2 where something that is needed isn't there."""


def version_of(source: str | None) -> str:
    """FRR's version as its configure.ac has it."""
    if source is None or not all(os.path.isfile(os.path.join(source, name)) for name in [*FILES, "configure.ac"]):
        raise Failed("needs the unpacked source of FRR 8.4.4, --frr DIR: on Debian 12 `apt-get source frr` gets it, "
                     "with deb-src among the Types of its sources", 2)
    with open(os.path.join(source, "configure.ac"), encoding="utf-8") as file:
        found = re.search(r"AC_INIT\(\[?frr\]?, *\[?([^\],]+)", file.read())
    return found.group(1) if found else "of an unknown version"


def built(source: str, room: str) -> str:
    """The harness with FRR's files, in the folder `room`."""
    if shutil.which("cc") is None:
        raise Failed("needs a C compiler, cc", 2)
    source = os.path.abspath(source)
    os.mkdir(os.path.join(room, "lib"))
    for name, text in [("config.h", CONFIG), ("lib/route_types.h", "")]:
        with open(os.path.join(room, name), "w", encoding="ascii") as file:
            file.write(text)
    words = ["cc", "-std=gnu11", "-O2", "-w", "-DHAVE_CONFIG_H", "-o", "why", "-I.", f"-I{source}", f"-I{source}/lib",
             f"-I{source}/include", HARNESS, *(os.path.join(source, name) for name in FILES)]
    try:
        ran = subprocess.run(words, cwd=room, capture_output=True, text=True, timeout=300)
    except subprocess.TimeoutExpired:
        raise Failed("the harness didn't compile in 300 s", 1)
    if ran.returncode:
        raise Failed(f"the harness doesn't compile with this source:\n{ran.stderr.rstrip()}", 1)
    return os.path.join(room, "why")


def say(name: str, words: list[str], rows: str, **settings: str) -> bool:
    """Runs one program on rows, and prints its lines under a name. True where it ended as it should."""
    print(f"  {name}")
    try:
        ran = subprocess.run(words, input=rows, capture_output=True, text=True, timeout=SECONDS,
                             env={**os.environ, **settings})
    except subprocess.TimeoutExpired as late:
        lines, end = (late.stdout or b"").decode(), f"has not ended after {SECONDS} s"
    else:
        lines, end = ran.stdout, "" if ran.returncode == 0 else f"ended with status {ran.returncode}"
    for line in [*lines.splitlines(), end]:
        if line:
            print(f"    {line}")
    return not end


def show(case: str, harness: str, program: str) -> bool:
    """One case, by both programs."""
    name = f"why-{case}.rows"
    with open(os.path.join(examples(), name), encoding="ascii") as file:
        rows = file.read()
    print(f"{case}: examples/{name}")
    ended = say("cspf", [harness], rows)
    if case == "ties":
        kept = rows.splitlines(keepends=True)
        last = "".join([row for row in kept if not row.startswith("ask,")] + kept[-1:])
        ended &= say("cspf, another process, the last request alone", [harness], last)
        setting = "glibc.malloc.mxfast=0"  # freed memory is handed out in another order
        ended &= say(f"cspf, another process, GLIBC_TUNABLES={setting}", [harness], rows, GLIBC_TUNABLES=setting)
    return say("routed solve", [program, "solve"], rows) and ended


def main(asked: list[str] | None = None) -> int:
    """Takes the words of a command line, and answers the status."""
    words = argparse.ArgumentParser(prog="routed-tools why", description=__doc__, formatter_class=argparse.RawDescriptionHelpFormatter)
    words.add_argument("--frr", metavar="DIR", help="the unpacked source of FRR")
    add_option(words)
    words.add_argument("case", nargs="?", choices=["cost", "float", "ties"], help="one case alone")
    given = words.parse_args(asked)
    try:
        if not os.path.isdir(examples()):
            raise Failed(f"needs the rows of {examples()}, which isn't there", 2)
        version = version_of(given.frr)
        program = os.path.abspath(find(given.program))
        if not os.access(program, os.X_OK):
            raise Failed(f"there is no program {program}", 2)
        with tempfile.TemporaryDirectory() as room:
            harness = built(given.frr, room)
            print(f"FRR {version}", flush=True)
            ended = [show(case, harness, program) for case in ("cost", "float", "ties") if given.case in (None, case)]
    except Failed as fault:
        why, status = fault.args
        return failed("why", why, status)
    return 0 if all(ended) else 1
