"""What `routed book --keep` leaves: the accepted rows, each before its lines, from which `routed book` makes the same book.

Streams with known lines and drawn ones, a file that is full after each byte, calls that are refused, and runs that are killed. If the
file is full, the row is refused by `keep W`, and later rows that could change the book by `stopped`.
"""
import math
import os
import random
import re
import resource
import subprocess
import tempfile
import threading
import time

from program.refusal import COMPILER, Refuser, each
from program.refused import CAUSES, REFUSALS, is_stopped
from reference import books, formats

KILLS = 100
STOPPED = b"routed: stopped\n"


def held(path):
    with open(path, "rb") as file:
        return file.read()


class Kept:
    """What a run over some rows has to write: its status, and for each row its lines and what is kept of it. `room` is how many bytes the
    file takes."""

    def __init__(self, rows, room=math.inf):
        self.rows = rows if isinstance(rows, bytes) else rows.encode("latin-1")
        self.status, found = books.steps(self.rows.decode("latin-1"), room)
        self.steps = [("".join(f"{line}\n" for line in lines).encode(), text.encode()) for lines, text in found]
        self.lines = b"".join(lines for lines, _ in self.steps)
        self.text = b"".join(text for _, text in self.steps)
        self.accepted = b"".join(lines for lines, text in self.steps if text)  # what a run over the text has to write

    def lines_before(self, size):
        """The lines of the rows before the first of which not all is within so many kept bytes."""
        lines = b""
        for more, text in self.steps:
            if len(text) > size:
                return lines
            lines, size = lines + more, size - len(text)
        return lines

    def is_part(self, lines, text):
        """Whether a run that ended anywhere may have written these lines and kept this text: what is kept of a row comes before its
        lines."""
        return self.lines.startswith(lines) and self.text.startswith(text) and self.lines_before(len(text)).startswith(lines)


def ran(program, room, rows, *words, **how):
    """Status, standard output, standard error, and what was kept of a run into a new file."""
    path = os.path.join(room, "kept")
    found = subprocess.run([program.path, "book", "--keep", path, *words], input=rows, capture_output=True, timeout=300, **how)
    text = held(path) if os.path.exists(path) else None
    if text is not None:
        os.remove(path)
    return found.returncode, found.stdout, found.stderr, text


def remade(program, checks, streams):
    """A run keeps what the reference does, and `book` over that accepts all of it, with the same lines."""
    with tempfile.TemporaryDirectory() as room:
        for name, rows in streams:
            kept = Kept(rows)
            checks.same(f"kept of {name}", ran(program, room, kept.rows), (kept.status, kept.lines, b"", kept.text))
            checks.same(f"the book of what is kept of {name}", ran(program, room, kept.text), (0, kept.accepted, b"", kept.text))


def same_book(program, checks, streams):
    """A run over what is kept makes the same book: after the whole stream and after what is kept of it, placements and links are shown
    alike."""
    shown = 0
    for name, rows in streams:
        kept = Kept(rows)
        words = [line.split() for line in kept.lines.decode().splitlines()]
        asked = {f"show,{it[1]}\n": None for it in words if it[0] in ("place", "held")}
        asked |= {f"left,{','.join(fields[1:3])}\n": None for fields in formats.records(rows) if fields[0] == "put"}

        def last(lines):
            """Those of the rows that ask."""
            return [line for line in lines if line.startswith(("show ", "left "))][-len(asked):]

        texts = [f"{text}{''.join(asked)}" for text in (rows, kept.text.decode("latin-1"))]
        wanted, *found = [last(books.book(text)[1]) for text in texts]
        if program:
            found += [last(program.run(["book"], text.encode("latin-1"))[1].decode().splitlines()) for text in texts]
        checks.same(f"the book of {name}, and that of what is kept of it", found, [wanted] * len(found))
        shown += sum(line.startswith("show ") and " refused: " not in line for line in wanted)
    checks.true("placements are shown", shown > 50, shown)


CHANGES = ("put,", "drop,", "node,")


def rows_again(rows, steps, read):
    """What was kept before a crash, and the rows to send again, if so many rows had been answered by then: the changes between the last
    end row and the last kept row, and all rows after that row."""
    kept = [at for at in range(read) if steps[at][1]]
    last = kept[-1] + 1 if kept else 0
    ends = [at for at in range(last) if rows[at].startswith("end,")]
    open_rows = [row for row in rows[ends[-1] + 1 if ends else 0:last] if row.startswith(CHANGES)]
    return b"".join(steps[at][1] for at in kept), "".join(open_rows + rows[last:]).encode("latin-1")


def gone_on(program, checks, streams):
    """After a crash at any row, a run over what was kept and the rows that are sent again keeps what the whole run would have kept."""
    faults, tried, with_open = [], 0, 0
    with tempfile.TemporaryDirectory() as room:
        for name, text in streams:
            kept, rows = Kept(text), (text if isinstance(text, str) else text.decode("latin-1")).splitlines(keepends=True)
            assert len(kept.steps) - len(rows) in (0, 1), name  # the last line is a step of its own
            for before, again in dict.fromkeys(rows_again(rows, kept.steps, read) for read in range(len(rows) + 1)):
                tried += 1
                with_open += not kept.rows.endswith(again)
                if ran(program, room, before + again)[3] != kept.text:
                    faults.append((name, before, again))
    checks.same("books that go on after a crash", faults[:1], [])
    checks.true("books go on with open changes, too", tried > with_open > 2, (tried, with_open))


def most_rows(program, checks, begins):
    """A kept book and the rows that are added to it have at most 1,000,000 rows together. Of the rows within the limit all are kept."""
    kept = Kept(begins)
    rows = kept.rows + b"drop,1.1.1.1,10.0.0.1\n" * (1_000_001 - len(kept.steps))
    with tempfile.TemporaryDirectory() as room:
        checks.same("a kept book of too many rows", ran(program, room, rows), (2, kept.lines + b"too many rows\n", b"", kept.text))


def refused_files(program, checks):
    """A file that is there already, or can't be made, is left as it is."""
    with tempfile.TemporaryDirectory() as room:
        path = os.path.join(room, "there")
        with open(path, "wb") as file:
            file.write(b"end,1,0\n")
        for words, said in [(path, f"keep {path}: open: File exists (os error 17)"),
                            (os.path.join(room, "no/file"), f"keep {room}/no/file: open: No such file or directory (os error 2)")]:
            found = program.run(["book", "--explain", "--keep", words], b"end,1,0\n")
            checks.same(f"kept in {os.path.basename(words)}", found, (3, b"", f"routed: {said}\n".encode() + STOPPED))
        checks.same("a file that was there", held(path), b"end,1,0\n")
        rows, path = Kept(b"end,1,0\nend,2,0\n"), os.path.join(room, "closed")
        found = subprocess.run(["sh", "-c", f'"{program.path}" book --keep "{path}" >&-'], input=rows.rows, capture_output=True, timeout=60)
        checks.same("kept where standard output is closed", (found.returncode, found.stderr, held(path)), (3, STOPPED, b"end,1,0\n"))
        found = subprocess.run(["sh", "-c", f'"{program.path}" book --keep "{path}2" <&-'], capture_output=True, timeout=60)
        checks.same("kept where standard input is closed, which then reads as nothing", (found.returncode, found.stdout, held(f"{path}2")),
                    (0, b"", b""))
        status, out, _ = program.run(["book", "--keep"], b"")
        checks.same("no file to keep in", (status, out), (1, b""))


def full(program, checks, name, rows, step=1):
    """A file that is full after each byte, or after each so many: the row that isn't kept whole is refused, and requests after it are
    answered."""
    whole, faults = Kept(rows), []
    with tempfile.TemporaryDirectory() as room:
        for size in range(0, len(whole.text) + 1, step):
            kept, words = Kept(rows, size), ["--explain"] * (size % 2)
            found = ran(program, room, kept.rows, *words, preexec_fn=lambda: resource.setrlimit(resource.RLIMIT_FSIZE, (size, size)))
            said = f"routed: keep {room}/kept: write: file too large\n".encode() if words and size < len(whole.text) else b""
            wanted = kept.status, kept.lines, said, whole.text[:size]
            if found != wanted or kept.text != whole.text[:size]:
                faults.append((size, found, wanted))
    checks.same(f"kept of {name} in a file that is full", faults[:1], [])


class Run:
    """A run with `--keep` while calls are refused."""

    def __init__(self, program, room, rows):
        self.kept, self.room, self.path = Kept(rows), room, program.path
        self.source = os.path.join(room, "rows")
        with open(self.source, "wb") as file:
            file.write(self.kept.rows)

    def judge(self, refuser, number, flags):
        """Whether anything was refused, and the fault of the run, if it has one."""
        path = os.path.join(self.room, f"kept{'-'.join(flags)}-{number}")
        found = refuser.run([self.path, "book", "--explain", "--keep", path], flags[0], number, *flags[1:], stdin=self.source)
        text = held(path) if os.path.exists(path) else b""
        if os.path.exists(path):
            os.remove(path)
        kept = self.kept
        whole = (found.status, found.out, found.err, text) == (kept.status, kept.lines, b"", kept.text)
        part = is_stopped(found, flags) and kept.is_part(found.out, text) or self.is_cut(found, text, flags)
        is_as_ever, is_full = found.refused == 0 or "short" in flags, flags in (("write",), ("write", "on"))
        fault = found.fault()
        if fault is None and not (whole if is_as_ever else (whole or part) and not (whole and is_full)):
            fault = f"status {found.status}, {found.out[-200:]}, {found.err[-200:]}, {text[-200:]}"
        return found.refused != 0, fault


    def is_cut(self, found, text, flags):
        """Whether a write to the file failed, and the lines are as they have to be then. With `on` no line can be written either."""
        cut = Kept(self.kept.rows, len(text))
        if flags[0] != "write" or "short" in flags or cut.text != text or text == self.kept.text:
            return False
        said = CAUSES["break" if "break" in flags else "write"]
        if "on" in flags:
            return cut.lines.startswith(found.out) and is_stopped(found, flags, b"(" + said + b")?")
        return (found.status, found.out) == (cut.status, cut.lines) and re.fullmatch(said, found.err) is not None


def refused_calls(program, checks, rows):
    if COMPILER is None:
        print("refused calls of a book that keeps: skipped, there is no C compiler")
        return
    refuser, tried = Refuser(), 0
    run = Run(program, refuser.room.name, rows)
    for flags in REFUSALS:
        count, faults = each(lambda number: run.judge(refuser, number, flags))
        checks.same(f"a book that keeps while calls are refused {flags}", faults, [])
        tried += count
    checks.true("calls of a book that keeps are refused", tried > 100, tried)
    print(f"refused calls of a book that keeps: {tried}")


def killed(program, checks, rows):
    """Runs that are killed, half of them while they write byte by byte. Each line that was written has what was kept before it."""
    kept, draw, start = Kept(rows), random.Random(3), time.monotonic()
    refuser = Refuser() if COMPILER else None
    parts, alike = set(), 0
    with tempfile.TemporaryDirectory() as room:
        for at in range(KILLS):
            path, source = os.path.join(room, f"kept{at}"), os.path.join(room, "rows")
            with open(source, "wb") as file:
                file.write(kept.rows)
            env = dict(os.environ)
            if refuser and at % 2:
                env.update(LD_PRELOAD=refuser.library, REFUSE_CALL="write", REFUSE_AT="1", REFUSE_ON="1", REFUSE_SHORT="1")
            with open(source, "rb") as stream, subprocess.Popen([program.path, "book", "--keep", path], stdin=stream,
                                                                stdout=subprocess.PIPE, stderr=subprocess.DEVNULL, env=env) as child:
                lines = []
                reader = threading.Thread(target=lambda: lines.append(child.stdout.read()))
                reader.start()
                wait(child, path, len(kept.text) * at // (KILLS - 10))
                time.sleep(draw.choice([0, 0, 0.0002, 0.001]))
                child.kill()
                reader.join()
            text = held(path) if os.path.exists(path) else b""
            checks.true(f"a book after kill {at}", kept.is_part(lines[0], text), (lines[0][-200:], text[-200:]))
            whole = Kept(text[:text.rfind(b"\n") + 1])
            alike += program.run(["book"], whole.rows) == (whole.status, whole.lines, b"")
            parts.add(len(text))
    checks.same("books of what is kept after kills", alike, KILLS)
    checks.true("the kills are spread over the run", refuser is None or len(parts) > KILLS // 3, len(parts))
    print(f"killed: {KILLS} books, {len(parts)} lengths of what is kept, in {time.monotonic() - start:.0f} s")


def wait(child, path, length):
    """Waits until so much is kept, or the run is over."""
    end = time.monotonic() + 10
    while child.poll() is None and time.monotonic() < end:
        if os.path.exists(path) and os.path.getsize(path) >= length:
            return
