"""Tests of the library for C (crates/cspf_c): its examples answer what `routed solve` must.

`examples/c` and a program of wrong calls are built with the C compiler, over the library that `rt lib` leaves in crates/cspf_c/out. Their
lines are those of `solve`, byte for byte, on all of tests/program/scripts and on drawn streams. Some runs are under valgrind, and each
allocation of one is refused. Without the library, a C compiler or `rt` a line says that it is skipped.
"""
import os
import random
import re
import shutil
import subprocess
import sys
import tempfile

from checks import TOP
from program.large import longest_routes
from program.refusal import COMPILER, Refuser, each
from reference import formats, runs
from reference.changes import changed, script

HERE = os.path.dirname(os.path.abspath(__file__))
LIBRARY = os.path.join(TOP, "crates/cspf_c/out/libcspf_c.a")
INCLUDE = os.path.join(TOP, "crates/cspf_c/include")
WARNINGS = ["-std=c11", "-Wall", "-Wextra", "-Werror", "-pedantic"]
DRAWN = 60  # scripts
VALGRIND = ["valgrind", "--quiet", "--error-exitcode=99", "--leak-check=full", "--errors-for-leak-kinds=all"]


def heap_library():
    """The toolchain's own C, which calls malloc: beside the page that `rt doc` names."""
    page = subprocess.run(["rt", "doc"], capture_output=True, text=True, check=True).stdout.strip()
    return os.path.join(os.path.dirname(page), "c/liblibc_c.a")


def build(room, name, words):
    """Compiles a C program or object of this name, and answers its path."""
    path = os.path.join(room, name)
    subprocess.run([COMPILER, *WARNINGS, "-O1", "-g", "-I", INCLUDE, "-o", path, *words, heap_library()], check=True)
    return path


def shared(room):
    """The library as a shared object."""
    return build(room, "libcspf_c.so", ["-shared", "-Wl,--whole-archive", LIBRARY, "-Wl,--no-whole-archive"])


def ran(words, rows):
    """Status, standard output and standard error of a run."""
    done = subprocess.run(words, input=rows, capture_output=True, timeout=900)
    return done.returncode, done.stdout, done.stderr


def lines_of(rows):
    """What `solve` must write of rows, by the formats' own words."""
    return "".join(f"{line}\n" for line in runs.solve(rows.decode("latin-1"))[1]).encode("latin-1")


def is_by_line(rows):
    """Whether each row stands on a line of its own, so that it can be given by itself."""
    text = rows.decode("latin-1")
    return [row for line in re.findall("[^\n]*\n|[^\n]+", text) for row in formats.records(line)] == list(formats.records(text))


def named_scripts():
    """Each stream of tests/program/scripts with what the file beside it says."""
    folder = os.path.join(HERE, "scripts")
    for name in sorted(os.listdir(folder)):
        if name.endswith(".rows"):
            with open(os.path.join(folder, name), "rb") as rows, open(os.path.join(folder, name[:-5] + ".out"), "rb") as lines:
                yield name, rows.read(), lines.read()


def drawn_scripts():
    """Scripts that are drawn, and some of them changed."""
    for seed in range(DRAWN):
        draw = random.Random(seed)
        text = script(draw)
        rows = (changed(draw, text)[0] if seed % 2 else text).encode("latin-1")
        yield f"drawn script {seed}", rows, lines_of(rows)


def answers(checks, solve, python, name, rows, lines):
    """One stream, in one call and in a call for each line."""
    def bytes_of(some):
        return "".join(some).encode("latin-1")

    def right(some):
        text = bytes_of(some)
        return 0, lines if text == rows else lines_of(text), b""

    checks.stream(f"{name} by the library for C", rows.decode("latin-1").splitlines(keepends=True),
                  lambda some: ran([solve], bytes_of(some)), right)
    if is_by_line(rows):
        checks.same(f"{name} by the library for C, line by line", ran([solve, "lines"], rows), (0, lines, b""))
        checks.same(f"{name} by the library for C from Python", ran(python, rows), (0, lines, b""))
        return 1
    return 0


def sound(checks, solve, name, rows, lines):
    """No run accesses memory that isn't its own, and none leaves memory allocated."""
    for words in ([solve], [solve, "lines"]):
        status, out, err = ran([*VALGRIND, *words], rows)
        checks.same(f"{name} by the library for C in valgrind", (status, out == lines or words[1:] != [], err), (0, True, b""))


def memory(checks, solve, room, rows, lines):
    """Each allocation is refused in turn: the run ends with status 3, behind some first lines."""
    refuser = Refuser()
    path = os.path.join(room, "rows")
    with open(path, "wb") as kept:
        kept.write(rows)

    def judge(at):
        run = refuser.run([solve, "lines"], "malloc", at, stdin=path)
        fault = run.fault()
        if fault is None and run.refused and (run.status, lines.startswith(run.out)) != (3, True):
            fault = f"status {run.status}, {run.out!r}"
        if fault is None and not run.refused and (run.status, run.out) != (0, lines):
            fault = f"untouched, but status {run.status}, {run.out!r}"
        return bool(run.refused), fault

    tried, faults = each(judge)
    checks.true("memory is refused in turn to the library for C", tried > 20 and not faults, (tried, faults))


def misuse(checks, room):
    """What the calls answer where no session is open, and that a session goes on behind its last line."""
    source = os.path.join(room, "misuse.c")
    with open(source, "w", encoding="ascii") as kept:
        kept.write(MISUSE)
    path = build(room, "misuse", [source, LIBRARY])
    checks.same("calls without a session", ran([path], b""),
                (0, b"row 1 refused: kind\nunended 1\nunended 2\nrow 4 refused: kind\nrow 5 refused: kind\n", b""))


MISUSE = r"""
#include <stdio.h>
#include <string.h>
#include "routed.h"

static uint8_t buffer[4096];

static int told(routed_handle *handle, uint32_t code, const size_t *size)
{
    size_t copied = routed_lines(handle, buffer, sizeof buffer);
    fwrite(buffer, 1, copied, stdout);
    return code == ROUTED_ANSWERED && copied == *size;
}

/* Both calls answer that no session is open, and write no size. */
static int stays_closed(routed_handle *handle, const uint8_t *row)
{
    size_t given = 12345, ended = 67890;
    return routed_rows(handle, row, 5, &given) == ROUTED_CLOSED && given == 12345
        && routed_end(handle, &ended) == ROUTED_CLOSED && ended == 67890 && handle->session == NULL;
}

int main(void)
{
    routed_handle handle = ROUTED_CLOSED_HANDLE;
    size_t size = 7;
    const uint8_t *wrong = (const uint8_t *)"wrong";
    const uint8_t *mark = (const uint8_t *)"node,1.1.1.1,0";
    if (!stays_closed(&handle, wrong))
        return 1;
    if (routed_lines(&handle, buffer, sizeof buffer) != 0)
        return 2;
    routed_close(&handle);
    if (routed_open(&handle) != ROUTED_ANSWERED || routed_open(&handle) != ROUTED_ANSWERED)
        return 3;
    if (routed_rows(&handle, wrong, 0, &size) != ROUTED_ANSWERED || size != 0)
        return 4;
    if (!told(&handle, routed_rows(&handle, wrong, 5, &size), &size))
        return 5;
    if (routed_lines(&handle, buffer, 3) != 3 || memcmp(buffer, "row", 3) != 0)
        return 6;
    for (int turn = 0; turn < 2; turn++) {
        if (!told(&handle, routed_rows(&handle, mark, strlen((const char *)mark), &size), &size) || size != 0)
            return 7;
        if (!told(&handle, routed_end(&handle, &size), &size))
            return 8;
    }
    /* A row that is cut in two is two rows, and a line end in quotes cuts none. */
    if (!told(&handle, routed_rows(&handle, (const uint8_t *)"\"wro\nng\"\n\"put", 12, &size), &size))
        return 10;
    routed_close(&handle);
    return stays_closed(&handle, wrong) ? 0 : 9;
}
"""


def many_rows(checks, solve):
    """Of a session 1,000,000 rows are answered."""
    rows = b"x\n" * 1_000_001
    lines = b"".join(b"row %d refused: kind\n" % place for place in range(1, 1_000_001)) + b"too many rows\n"
    found = ran([solve], rows)
    checks.true("1,000,001 rows by the library for C", found == (0, lines, b""), found[1][-100:])


def c_library(program, checks):
    if not os.path.exists(LIBRARY):
        print(f"c_library: skipped, for there is no {os.path.relpath(LIBRARY, TOP)}: (cd crates/cspf_c && rt lib) makes it")
        return
    if COMPILER is None or shutil.which("rt") is None:
        print("c_library: skipped, for there is no C compiler or no rt")
        return
    with tempfile.TemporaryDirectory() as room:
        solve = build(room, "solve", [os.path.join(TOP, "examples/c/solve.c"), LIBRARY])
        python = [sys.executable, os.path.join(TOP, "examples/c/solve.py"), shared(room)]
        streams = [*named_scripts(), *drawn_scripts()]
        by_line = sum(answers(checks, solve, python, *stream) for stream in streams)
        checks.true("most streams are given line by line too", by_line * 2 > len(streams), by_line)
        misuse(checks, room)
        many_rows(checks, solve)
        rows, lines = longest_routes()
        answers(checks, solve, python, "the longest routes", rows.encode(), lines.encode())
        longest = max(named_scripts(), key=lambda stream: len(stream[1]))
        if shutil.which("valgrind") is None:
            print("c_library: there is no valgrind, so what the library leaves of memory isn't looked at")
        else:
            for stream in [longest, *drawn_scripts()][:8]:
                sound(checks, solve, *stream)
        with open(os.path.join(TOP, "examples/abilene.rows"), "rb") as kept:
            rows = kept.read()
        memory(checks, solve, room, rows, lines_of(rows))
