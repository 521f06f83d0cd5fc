"""What linters find in files of Python and of the shell, and how long lines and files are."""
import os
import re
import shutil
import subprocess
import tempfile

from checks import TOP

MOST_COLUMNS, MOST_LINES = 140, 450  # of a line of Python or of the shell, and of a file of Python
PYTHON, SHELL = (rb"#!.*\bpython3?\n", rb"#!.*\bsh\n")
LINTERS = {  # each with the files that it reads, a few of them, and what it has to find
    "pyflakes3": (PYTHON, {"tests/texts", "tools/routed-tools", "man/make", "python/routed/front/listen.py"},
                  ["try:\n    pass\nexcept OSError as fault:\n    print(lambda: fault)\n", "import os\n"]),
    "shellcheck": (SHELL, {".ci/run", "deploy/fed", "deploy/keep", "deploy/serve"}, ["#!/bin/sh\nrm $1\n"]),
}


def files_of(head):
    """All files that begin so, and those whose name says that they are Python."""
    for at, inner, names in os.walk(TOP):
        inner[:] = [name for name in inner if name not in (".git", "out", "__pycache__")]
        for path in (os.path.join(at, name) for name in sorted(names)):
            if path.endswith(".py") and head == PYTHON or os.path.isfile(path) and begins(path, head):
                yield os.path.relpath(path, TOP)


def begins(path, head):
    with open(path, "rb") as file:
        return re.match(head, file.read(100))


def too_long(name, text):
    """The places of lines that are too long."""
    return [f"{name}:{at}" for at, line in enumerate(text.splitlines(), 1) if len(line) > MOST_COLUMNS]


def lint(checks):
    """Linters find nothing, and find what is planted; no line and no file of Python is too long."""
    for linter, (head, some, planted) in LINTERS.items():
        found, texts = list(files_of(head)), {}
        checks.true(f"there are files for {linter}", some <= {*found}, found)
        for name in found:
            with open(os.path.join(TOP, name), encoding="utf-8") as file:
                texts[name] = file.read()
        checks.same(f"lines of more than {MOST_COLUMNS} columns in files for {linter}",
                    [place for name in found for place in too_long(name, texts[name])], [])
        if head == PYTHON:
            checks.same(f"files of more than {MOST_LINES} lines", [name for name in found if texts[name].count("\n") > MOST_LINES], [])
        if shutil.which(linter) is None:
            print(f"tests/texts: skipped {linter}, which isn't there (Debian's package {linter})")
            continue
        ran = subprocess.run([linter, *found], cwd=TOP, capture_output=True, text=True)
        checks.same(f"what {linter} finds", (ran.returncode, ran.stdout + ran.stderr), (0, ""))
        with tempfile.TemporaryDirectory() as room:
            for text in planted:
                with open(os.path.join(room, "planted"), "w", encoding="ascii") as file:
                    file.write(text)
                ran = subprocess.run([linter, "planted"], cwd=room, capture_output=True, text=True)
                checks.true(f"{linter} finds {text!r}", ran.returncode == 1 and "planted" in ran.stdout, ran.stdout)
    checks.same("a line that is too long", too_long("it", "x" * 140 + "\n" + "x" * 141 + "\n"), ["it:2"])


def types(checks):
    """mypy finds nothing in python/routed, and finds a planted number that is taken for a text."""
    if shutil.which("mypy") is None:
        print("tests/texts: skipped types, there is no mypy (Debian's package of that name)")
        return
    with tempfile.TemporaryDirectory() as room:
        words = ["mypy", "--check-untyped-defs", "--cache-dir", os.path.join(room, "cache")]
        ran = subprocess.run([*words, "routed"], cwd=os.path.join(TOP, "python"), capture_output=True, text=True)
        checks.same("what mypy finds", (ran.returncode, ran.stdout.splitlines()[:-1] + ran.stderr.splitlines()), (0, []))
        with open(os.path.join(room, "planted.py"), "w", encoding="ascii") as file:
            file.write("def planted():\n    return len(1)\n")
        ran = subprocess.run([*words, "planted.py"], cwd=room, capture_output=True, text=True)
        checks.true("mypy finds what is planted", ran.returncode == 1 and "planted.py:2: error" in ran.stdout, ran.stdout)
