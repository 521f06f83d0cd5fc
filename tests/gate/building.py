"""Tests of tools/build on a tree of small crates, with an `rt` that only notes what it finds, as two kinds of kit have it. What
tools/kit.py reads from the help of the kit on the path is compared with what that kit does."""
import os
import shutil
import subprocess
import sys
import tempfile
import time

from checks import TOP

sys.path.insert(1, os.path.join(TOP, "tools"))
from kit import Kit, asked, kit_of

# The program doesn't need `alone`, and the program of `solve` needs `left` alone.
SOLVE = "routed_solve: left\n"
LINES = f"low: csv # below both arms\nleft: low\nalone: low\nright: low csv\n{SOLVE}routed: left right clap\n"
USAGE = """usage: rt new FOLDER   makes a crate from a template
       rt check|verdict|lib|run|test [NAME] [rattle's flags] [-- the program's arguments]
       rt try [NAME] [--test] [-- the program's arguments]
"""
# The helps of two kits: `rt ci` takes names in the first alone, which also keeps what passed.
NAMED = f"""rt: proves, builds and tests the crates of a repository.

  rt ci                   the merge gate, at the top of the repository: proves each crate and its tests
                          What a run passed is kept beside the kit. --anew proves and tries all
  rt ci NAME..            the same for these crates and those below them
  rt must-fail [NAME..]   tries the edits crates/NAME/must-fail/*.edit alone; --anew tries all
  rt version              prints the kit's one-line identity

{USAGE}"""
NAMELESS = f"""rt: proves, builds and tests the crates of a repository.

  rt ci                   the merge gate, at the top of the repository: proves each crate and its tests, whatever
                          an earlier run passed. Each crate is a folder crates/NAME
  rt must-fail [NAME..]   tries the edits alone. What passes is kept for the next run; --anew tries all
  rt version              prints the kit's one-line identity

{USAGE}"""
BARE = NAMELESS.replace("  rt must-fail [NAME..]   tries the edits alone. What passes is kept for the next run; --anew tries all\n", "")
# Helps of other words, each with what it says.
HELPS = [
    (NAMED, Kit(takes_names=True, takes_anew=True, keeps=True, has_must_fail=True)),
    (NAMELESS, Kit(False, False, False, True)),
    (BARE, Kit(False, False, False, False)),
    ("usage: rt ci [--anew] [NAME ..]\n       rt must-fail NAME\n", Kit(True, True, True, True)),
    ("rt ci the merge gate\n\trt ci CRATE ..\tthese alone: what passes is\n\t\tkept\n", Kit(True, False, True, False)),
    ("rt ci   proves all\n\nIn a kit that has it, rt ci NAME proves one crate, and what\nrt check proved is kept; --anew\n",
     Kit(False, False, False, False)),
    ("  rt ci   proves all. Nothing is kept\n", Kit(False, False, False, False)),
    ("", Kit(False, False, False, False)),
]
# What the run over all crates of the program notes.
WHOLE = ["ci", "./HANDLES", "./crates.txt",
         *(f"./crates/{name}/src/{path}" for name in ("left", "low", "right", "routed") for path in ("lib.rt", "out/kept.rt")),
         *LINES.replace("alone: low\n", "").replace(SOLVE, "").splitlines()]
# The same with --solve.
LITTLE = ["ci", "./HANDLES", "./crates.txt",
          *(f"./crates/{name}/src/{path}" for name in ("left", "low", "routed_solve") for path in ("lib.rt", "out/kept.rt")),
          "low: csv # below both arms", "left: low", SOLVE.strip()]
# `rt ci NAME` prints the usage in a kit without names.
RT = """#!/bin/sh
echo "$*" >>"$NOTES"
[ "$1" = ci ] || { cat "$HELP" >&2; exit 2; }
[ -z "$NAMELESS" ] || [ $# -eq 1 ] || { tail -n 3 "$HELP" >&2; exit 2; }
[ $# -gt 1 ] || { find . -type f | LC_ALL=C sort && cat crates.txt; } >>"$NOTES"
echo "what rt prints of ${2:-all}"
[ -z "$HANGS" ] || { trap 'kill $!; exit 1' TERM; sh -c 'echo $$ >"$NOTES.child"; exec sleep 60' & wait; }
[ "$FAILS" != "${2:-all}" ] || exit 3
[ -n "$FORGETS" ] || echo "$2 and the crates below passed, and that is kept. This is not the gate"
[ $# -gt 1 ] || for name in crates/routed*; do mkdir -p "$name/out" && echo "proved ${name#*/}" >"$name/out/${name#*/}"; done
"""


class Tree:
    """A copy of tools over crates of its own, with an `rt` and its help."""

    def __init__(self, room, tools=("tools/build",), rt=RT):
        self.room, self.notes, self.program = room, os.path.join(room, "notes"), os.path.join(room, "crates/routed/out/routed")
        self.solve = os.path.join(room, "crates/routed_solve/out/routed_solve")
        for name in "low", "left", "alone", "right", "routed", "routed_solve":
            for path in "src/lib.rt", "src/out/kept.rt", "must-fail/wrong.edit", "out/rlib/made":
                self.write(f"crates/{name}/{path}", "text\n")
        for path in (*tools, "tools/crates.py", "tools/kit.py"):
            os.makedirs(os.path.dirname(os.path.join(room, path)), exist_ok=True)
            shutil.copy(os.path.join(TOP, path), os.path.join(room, path))
        self.write("crates.txt", LINES)
        self.write("HANDLES", "Handles allowed: none.\n")
        self.write("help", NAMED)
        self.write("bin/rt", rt)
        os.chmod(os.path.join(room, "bin/rt"), 0o755)

    def write(self, path, text):
        os.makedirs(os.path.dirname(os.path.join(self.room, path)), exist_ok=True)
        with open(os.path.join(self.room, path), "w", encoding="utf-8") as file:
            file.write(text)

    def begun(self, *words, **names):
        words = words or ["tools/build"]
        names |= {"PATH": f"{self.room}/bin:{os.environ['PATH']}", "NOTES": self.notes, "HELP": os.path.join(self.room, "help")}
        return subprocess.Popen([os.path.join(self.room, words[0]), *words[1:]], env={**os.environ, **names}, stdin=subprocess.DEVNULL,
                                stdout=subprocess.PIPE, stderr=subprocess.STDOUT, text=True)

    def run(self, *words, **names):
        for path in (self.notes, self.program, self.solve):
            if os.path.exists(path):
                os.remove(path)
        ran = self.begun(*words, **names)
        said = ran.communicate(timeout=60)[0]
        return ran.returncode, said.splitlines()

    def noted(self):
        return read(self.notes).splitlines()


def read(path):
    with open(path, encoding="utf-8") as file:
        return file.read()


def building(checks):
    for text, kit in HELPS:
        checks.same(f"what the help {text[:70]!r} says", kit_of(text), kit)
    found_as_told(checks)
    with tempfile.TemporaryDirectory() as room:
        tree = Tree(room)
        failed(tree, checks)
        built(tree, checks)
        solving(tree, checks)
        forgotten(tree, checks)
        interrupted(tree, checks)
        refused_names(tree, checks)
        without_kit(tree, checks)
        nameless(tree, checks)


def found_as_told(checks):
    """The help of the kit on the path says what that does in an empty folder. A command that isn't there is answered by the usage."""
    if not shutil.which("rt"):
        print("the help of the kit: skipped, there is no rt on the path")
        return
    kit = asked()
    with tempfile.TemporaryDirectory() as room:
        def is_there(*words):
            ran = subprocess.run(["rt", *words], cwd=room, stdin=subprocess.DEVNULL, stdout=subprocess.PIPE, stderr=subprocess.STDOUT,
                                 text=True)
            return "usage: rt" not in ran.stdout
        checks.true("rt answers a command that isn't there by its usage", not is_there("no-command"))
        checks.same("rt ci takes names as its help says", is_there("ci", "low"), kit.takes_names)
        checks.same("rt ci takes --anew as its help says", is_there("ci", "--anew"), kit.takes_anew)
        checks.same("rt must-fail is there as the help says", is_there("must-fail", "low"), kit.has_must_fail)


def failed(tree, checks):
    for name, printed in ("low", "what rt prints of low"), ("all", "what rt prints of all"):
        status, said = tree.run(FAILS=name)
        checks.same(f"tools/build: the status is that of the run of rt ci that fails ({name})", status, 3)
        checks.true("it passes on what that prints, and says at last that it failed", printed in said and said[-1].startswith("FAILED in "),
                    said)
        checks.true("there is no program then", not os.path.exists(tree.program))
    status, said = tree.run(FAILS="left")
    checks.true("a crate that fails is named", status == 3 and any(line.startswith("left: FAILED in ") for line in said), said)
    checks.true("nothing above it is begun", "ci" not in tree.noted(), tree.noted())


def built(tree, checks):
    status, said = tree.run()
    checks.same("tools/build: its status", status, 0)
    checks.true("the last line says that it is built", said[-1].startswith("built in "), said)
    checks.same("the program that rt ci built takes its place", read(tree.program), "proved routed\n")
    checks.true("the program of solve isn't built", not os.path.exists(tree.solve))
    found = tree.noted()
    checks.same("rt's help is asked once, and then each crate is proved once, the lower one first",
                (found[:2], sorted(found[2:4])), (["help", "ci low"], ["ci left", "ci right"]))
    checks.same("the last run finds what the program needs, and no wrong bodies", found[4:], WHOLE)


def solving(tree, checks):
    """With --solve the program of `solve` is built, and only what it needs is proved."""
    status, said = tree.run("tools/build", "--solve")
    checks.same("tools/build --solve: its status and last line", (status, said[-1].partition(" in ")[0]), (0, "built"))
    checks.same("the program of solve takes its place", read(tree.solve), "proved routed_solve\n")
    checks.true("routed isn't built", not os.path.exists(tree.program))
    found = tree.noted()
    checks.same("only the crates below it are proved, each once", (found[:3], found[3:]), (["help", "ci low", "ci left"], LITTLE))
    status, said = tree.run("tools/build", "--solve", FAILS="all")
    checks.same("its status where the last run fails", (status, said[-1].partition(" in ")[0]), (3, "FAILED"))
    checks.true("there is no program then", not os.path.exists(tree.solve))
    status, said = tree.run("tools/build", "solve")
    checks.true("another word is refused, and nothing is proved", status == 2 and not os.path.exists(tree.notes), (status, said))


def forgotten(tree, checks):
    status, _ = tree.run(FORGETS="1")
    calls = [line for line in tree.noted() if line.split()[0] == "ci"]
    checks.same("where nothing is kept, one run proves all", (status, calls), (0, ["ci low", "ci"]))


def refused_names(tree, checks):
    """The help says that names are taken, and a run with one judges nothing."""
    status, said = tree.run(NAMELESS="1")
    calls = [line for line in tree.noted() if line.split()[0] in ("help", "ci")]
    checks.same("where a run with a name ends with status 2, one run proves all", (status, calls), (0, ["help", "ci low", "ci"]))
    checks.same("one line says so, with the first that rt printed", [line for line in said if "rt new" in line or "rt try" in line],
                ["low: `rt ci low` ended with status 2, so one run proves all: usage: rt new FOLDER   makes a crate from a template"])
    checks.true("the program is built then", os.path.exists(tree.program))


def nameless(tree, checks):
    """A kit whose `rt ci` takes no names and keeps nothing."""
    tree.write("help", NAMELESS)
    status, said = tree.run(NAMELESS="1", FORGETS="1")
    checks.same("where rt ci takes no names, one run proves what the program needs", (status, tree.noted()), (0, ["help", *WHOLE]))
    checks.true("it says at last that it built the program", said[-1].startswith("built in ") and not any("usage" in line for line in said),
                said)
    checks.true("the program of that run takes its place", os.path.exists(tree.program))
    status, said = tree.run("tools/build", "--solve", NAMELESS="1", FORGETS="1")
    checks.same("with --solve one run proves what that program needs", (status, tree.noted()), (0, ["help", *LITTLE]))
    status, said = tree.run(NAMELESS="1", FORGETS="1", FAILS="all")
    checks.same("its status is that of the run", (status, said[-1].partition(" in ")[0]), (3, "FAILED"))


def without_kit(tree, checks):
    os.makedirs(os.path.join(tree.room, "python"))
    os.symlink(sys.executable, os.path.join(tree.room, "python/python3"))
    ran = subprocess.run([os.path.join(tree.room, "tools/build")], env={"PATH": os.path.join(tree.room, "python")}, stdout=subprocess.PIPE,
                         stderr=subprocess.STDOUT, text=True)
    checks.same("tools/build without a kit", (ran.returncode, ran.stdout),
                (2, "rt, the command of the Rattle kit, can't be run: No such file or directory\n"))


def interrupted(tree, checks):
    ran = tree.begun(HANGS="1")
    child = f"{tree.notes}.child"
    for _ in range(200):
        if os.path.exists(child) and os.path.getsize(child):
            break
        time.sleep(0.05)
    number = int(read(child))
    before = birth(number)
    ran.terminate()
    said = ran.communicate(timeout=60)[0].splitlines()
    checks.same("tools/build: its status and last words where it is interrupted", (ran.returncode, said[-1]),
                (1, "tools/build: ended by a signal"))
    for _ in range(100):  # (who takes up orphans may do so a little later)
        if birth(number) != before:
            break
        time.sleep(0.05)
    checks.true("what rt started was at work, and ends with it", before and birth(number) != before, (before, birth(number)))


def birth(pid):
    """When a process began, as /proc says it, or None once it has ended: its number may be another's by then."""
    try:
        with open(f"/proc/{pid}/stat", encoding="utf-8") as stat:
            fields = stat.read().rpartition(")")[2].split()
        return fields[19] if fields[0] not in "ZX" else None
    except (FileNotFoundError, ProcessLookupError):
        return None
