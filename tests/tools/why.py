"""Tests of routed-tools why as far as they need no source of FRR: it says what is missing, and its rows are answered as they are meant."""
import os
import subprocess
import tempfile

from checks import TOOLS, TOP

FILES = ["lib/cspf.c", "lib/linklist.c", "lib/memory.c", "lib/typerb.c", "configure.ac"]


def missing(words):
    """Status, standard output, and whether standard error is one line of the tool's own, with that line."""
    ran = subprocess.run([TOOLS, "why", *words], capture_output=True, text=True, timeout=60)
    lines = ran.stderr.splitlines()
    return ran.returncode, ran.stdout, len(lines) == 1 and lines[0].startswith("why: "), ran.stderr


def both_ways(rows):
    """Whether each link of the rows has its reverse."""
    links = {tuple(row.split(",")[1:5]) for row in rows.splitlines() if row.startswith("put,")}
    return bool(links) and all((neighbor, remote, router, local) in links for router, local, neighbor, remote in links)


def why(program, checks):
    with tempfile.TemporaryDirectory() as room:
        for name, words in [("no folder", []), ("no folder, one case", ["ties"]), ("a folder without source", ["--frr", room]),
                            ("a folder that isn't there", ["--frr", os.path.join(room, "absent"), "cost"])]:
            status, out, one, err = missing(words)
            checks.same(f"{name}: nothing is run", (status, out, one), (2, "", True))
            checks.true(f"{name}: says how to get it", "--frr DIR" in err and "apt-get source frr" in err and "8.4.4" in err, err)
        os.mkdir(os.path.join(room, "lib"))
        for name in FILES:
            with open(os.path.join(room, name), "w"):
                pass
        absent = os.path.join(room, "absent")
        checks.same("a program that isn't there", missing(["--frr", room, "--program", absent]),
                    (2, "", True, f"why: there is no program {absent}\n"))
    for case in ("cost", "float", "ties"):
        with open(os.path.join(TOP, f"examples/why-{case}.rows"), encoding="ascii") as file:
            checks.true(f"the links of why-{case}.rows run both ways", both_ways(file.read()))
