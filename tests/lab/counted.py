"""The chain of the lab with a PCE whose book counts: three LSPs of `pathd`, of which two are too much for one circuit."""
import os
import re
import subprocess
import tempfile

from checks import TOP
from lab import chain
from lab.pce import PceChain
from lab.routers import COUNTED, FREE, ROOM

ROUND_5 = [1, 3, 5, 6]  # the way round router 4


class CountedChain(PceChain):
    """What the PCE says of its rows is kept in `lab.said`."""

    def __init__(self, program, collect, folder):
        self.said, kept = (os.path.join(folder, f"lab.{kind}") for kind in ("said", "kept"))
        place = os.path.join(ROOM, "placements")
        self.more = {"listen": ["--placements", place, "--keep", kept], "pcep": ["--placements", place, "--log-level", "info"]}
        super().__init__(program, collect, folder)

    def run(self, tool, before, *words):
        return super().run(tool, before, *words, *self.more[tool], said=open(self.said, "a", encoding="utf-8") if tool == "pcep" else None)

    def answered(self, paths):
        """Waits until the LSPs are reported, delegated and on these paths."""
        def found():
            return sorted(path or [] for _, path, _ in self.lsps.values())

        self.wait(lambda: found() == sorted(paths) and all(lsp[0] for lsp in self.lsps.values()),
                  lambda: f"the LSPs are {found()}, not {paths},")
        return max(self.versions)


def sums(text):
    """What the lines of the PCE count on each link, by version. At the versions of rows that its PCC's reports made a link may carry more
    than it has until one LSP is moved."""
    placed, found = {}, []
    for kind, number, version, bandwidth, links in re.findall(
            r"the book: (place|held|released) (\d+) v(\d+)(?: bandwidth=(\d+) hold=\d ([0-9., ]+))?", text):
        placed.pop(number, None)
        if kind != "released":
            placed[number] = int(bandwidth), links.split()
        counted = {}
        for amount, route in placed.values():
            for link in route:
                counted[link] = counted.get(link, 0) + amount
        found.append((int(version), kind, max(counted.values(), default=0)))
    return found


def most(text):
    """The versions at which a link carries more than it has, but for those behind a report that made it so."""
    over, is_reported = [], False
    for version, kind, amount in sums(text):
        is_reported = amount > FREE and (kind == "held" or is_reported)
        if amount > FREE and not is_reported:
            over.append((version, kind, amount))
    return over


def show(routers, one, say, direct):
    """The events, and the paths that each leaves."""
    both, rest = sorted([direct, direct, ROUND_5]), sorted([direct, [1, 3, 4, 6], ROUND_5])
    for name, paths, do in [("three LSPs", both, lambda: None),
                            ("circuit 2-4 down", rest, lambda: routers.link(2, 4, "down")),
                            ("circuit 2-4 up", both, lambda: routers.link(2, 4, "up"))]:
        do()
        version = one.answered(paths)
        one.rest(1.0)
        say(f"{name:24} v{version:<5} {'; '.join(' '.join(map(str, path)) for path in paths)}")
    with open(one.said, encoding="utf-8") as file:
        text = file.read()
    if over := most(text):
        raise chain.Fault(f"a circuit carries more than it has: {over}")
    say(f"rows of the book: {len(sums(text))}, {'uncounted' if 'is uncounted' in text else 'all are counted'}")


def counted_head_end(program, checks):
    """A run of the lab whose LSPs a book counts: at which paths they are, and what the PCE's lines count on each circuit."""
    with tempfile.TemporaryDirectory() as room:
        words = [os.path.join(TOP, "tests/lab/lab"), "--counted", "--dead", "40", "--program", program, "--folder", room]
        ran = subprocess.run(words, capture_output=True, text=True, timeout=900)
        print(f"tests/chain: {ran.stdout}", end="")
        checks.same("a run with a book", ran.returncode, 0)
        lines = re.findall(r"(?m)^(.{24}) v\d+ +([1-6 ;]+)$", ran.stdout)
        both = "1 2 4 6; 1 2 4 6; 1 3 5 6"
        checks.same("three LSPs take two ways", [(name.strip(), paths) for name, paths in lines],
                    [("three LSPs", both), ("circuit 2-4 down", "1 2 4 6; 1 3 4 6; 1 3 5 6"), ("circuit 2-4 up", both)])
        with open(os.path.join(room, "lab.said"), encoding="utf-8") as file:
            text = file.read()
        amounts = {int(amount) for amount in re.findall(r"bandwidth=(\d+)", text)}
        checks.same("all are counted, with the bandwidths that they have", (amounts, "is uncounted" in text),
                    ({amount for _, amount in COUNTED}, False))
        checks.same("no circuit carries more than it has", most(text), [])
        planted = text.replace(" place ", " held ", 1) + "pcep: the book: place 7 v99 bandwidth=126000000 hold=7 10.0.0.1,10.0.12.1\n"
        checks.same("one that does would be seen", [version for version, _, _ in most(planted)], [99])
