"""`--explain` says why a run stops, in one line before the last; all else stays as it is.

Runs with standard error closed, and with a limit of a file's size, are among them.
"""
import os
import resource
import signal
import subprocess
import tempfile

from checks import TOP
from reference.versions import Versions

ABSENT, FOLDER, FULL = (f"{text}\n" for text in (
    "No such file or directory (os error 2)", "Is a directory (os error 21)", "No space left on device (os error 28)"))
PUT = "put,1.1.1.1,10.0.12.1,2.2.2.2,10.0.12.2,10,0x1,5,5,5,5,5,5,5,5\n"
MARK = "node,1.1.1.1,0\n"
ASK = "ask,1,1.1.1.1,2.2.2.2,0,5,0x0,0x0,0x0,\n"
AUDITED = ("journal", "requests", "replies")


def explained(program, checks):
    with tempfile.TemporaryDirectory() as room:
        absent, journal = os.path.join(room, "absent"), os.path.join(room, "journal")
        null = "/dev/null"
        for words, line in [
            (["batch", "--journal", absent, "--requests", null], f"journal {absent}: open: {ABSENT}"),
            (["batch", "--journal", null, "--requests", absent], f"requests {absent}: open: {ABSENT}"),
            (["batch", "--journal", room, "--requests", null], f"journal {room}: read: {FOLDER}"),
            (["batch", "--journal", null, "--requests", room], f"requests {room}: read: {FOLDER}"),
            (["live", "--updates", absent, "--requests", null, "--journal", journal], f"updates {absent}: open: {ABSENT}"),
            (["live", "--updates", null, "--requests", absent, "--journal", journal], f"requests {absent}: open: {ABSENT}"),
            (["live", "--updates", null, "--requests", null, "--journal", room], f"journal {room}: open: File exists (os error 17)\n"),
            (["live", "--updates", room, "--requests", null, "--journal", journal], f"updates {room}: read: {FOLDER}"),
            (["snapshot", "--journal", absent], f"journal {absent}: open: {ABSENT}"),
            (["snapshot", "--journal", room], f"journal {room}: read: {FOLDER}"),
            *((["audit", *(word for other in AUDITED for word in (f"--{other}", path if other == name else null))],
               f"{name} {path}: {said}")
              for name in AUDITED for path, said in ((absent, f"open: {ABSENT}"), (room, f"read: {FOLDER}"))),
        ]:
            checks.same(f"a stop that isn't explained: {words}", program.run(words), (3, b"", b"routed: stopped\n"))
            if os.path.exists(journal):
                os.remove(journal)
            checks.same(f"a stop that is explained: {words}", program.run([*words, "--explain"]),
                        (3, b"", f"routed: {line}routed: stopped\n".encode()))
            if os.path.exists(journal):
                os.remove(journal)
        rows(program, checks, room)
        streams(program, checks)
        limited(program, checks, room)
        closed(program, checks)


def rows(program, checks, room):
    """A torn journal and a bad row: the file, the row and the reason; nothing of a file that is good, nor of one that can't be read
    twice."""
    def refused(command, name, path, text, said, *more):
        with open(path, "w", encoding="ascii") as file:
            file.write(text)
        words, made = [command, f"--{name}", path, *more], f"{path}.new"
        ran = program.run(words)
        if os.path.exists(made):
            os.remove(made)
        told = program.run([*words, "--explain"])
        checks.same(f"{command}: {said}", (told[:2], told[2].decode()), (ran[:2], f"routed: {name} {path}: {said}\n" if said else ""))
        checks.true(f"{command} refuses: {said}", ran[0] == 2 and ran[2] == b"", ran)

    empty = os.path.join(room, "empty")
    with open(empty, "wb"):
        pass
    for at, (text, said) in enumerate([
        ("end,1,0\nput,1\n", "row 2: fields"), (f"{PUT}end,1,1\nend,1,0\n", "row 3: expected 2"), (f"{PUT}end,1,2\n", "row 2: counted 1"),
        (f"end,1,0\n{PUT}{MARK}", "row 3: unended 2"), (f"end,1,0\n{ASK}", "row 2: kind"), (f"{MARK}hello\nend,1,0\n", "row 2: kind"),
        (f"{MARK}{MARK}end,1,2\n", ""),
    ]):
        path = os.path.join(room, f"refused{at}")
        refused("batch", "journal", path, text, said, "--requests", empty)
        refused("snapshot", "journal", path, text, said)
        refused("live", "updates", path, text, said, "--requests", empty, "--journal", f"{path}.new")
        refused("audit", "journal", path, text, said, "--requests", empty, "--replies", empty)
    refused("snapshot", "journal", path, "bad\n" + "end,1,0\n" * 1_000_000, "row 1000001: too many rows")
    for text, said in [(f"{ASK}ask,1\n", "row 2: fields"), (f"{ASK}{ASK}end,1,0\n", "row 3: kind")]:
        refused("batch", "requests", path, text, said, "--journal", empty)
    ran = subprocess.run([program.path, "snapshot", "--explain", "--journal", "/dev/stdin"], input=b"bad\n", capture_output=True,
                         timeout=60)
    checks.same("a journal by a pipe", (ran.returncode, ran.stdout, ran.stderr), (2, b"journal torn after 0\n", b""))


def streams(program, checks):
    """Standard input and output that fail; a run that doesn't stop says nothing more."""
    rows = os.path.join(TOP, "examples/abilene.rows")
    batch = [program.path, "batch", "--explain", *(word for kind in ("journal", "requests")
                                                   for word in (f"--{kind}", os.path.join(TOP, f"examples/nsfnet.{kind}")))]
    audit = [program.path, "audit", "--explain", *(word for name in AUDITED for word in (f"--{name}", os.devnull))]
    folder = os.open(TOP, os.O_RDONLY)
    with open("/dev/full", "wb") as full, open(rows, "rb") as source:
        for name, words, stdin, line in [
            ("standard output is full", [program.path, "solve", "--explain"], source, f"standard output: write: {FULL}"),
            ("standard output of a batch is full", batch, subprocess.DEVNULL, f"standard output: flush: {FULL}"),
            ("standard output of an audit is full", audit, subprocess.DEVNULL, f"standard output: flush: {FULL}"),
        ]:
            ran = subprocess.run(words, stdin=stdin, stdout=full, stderr=subprocess.PIPE)
            checks.same(f"explained: {name}", (ran.returncode, ran.stderr.decode()), (3, f"routed: {line}routed: stopped\n"))
    ran = subprocess.run([program.path, "solve", "--explain"], stdin=folder, capture_output=True)
    checks.same("explained: standard input is a folder", (ran.returncode, ran.stderr.decode()),
                (3, f"routed: standard input: read: {FOLDER}routed: stopped\n"))
    os.close(folder)
    with open(rows, "rb") as source:
        text = source.read()
    checks.same("nothing to explain", program.run(["solve", "--explain"], text), program.run(["solve"], text))


def limited(program, checks, room):
    """A limit of a file's size: a journal that reaches it is refused, and standard output is as help says."""
    updates = os.path.join(TOP, "examples/nsfnet.journal")
    with open(updates, encoding="ascii") as file:
        texts = Versions(file.read(), []).texts
    lengths, most = [len(text) for text in texts], len(texts) - 1
    for size, applied in [(0, 0), (100, 0), (lengths[1] - 1, 0), (lengths[1], 1), (lengths[1] + 5, 1), (lengths[3], 3),
                          (lengths[6] + 19, 6), (lengths[most], most)]:
        journal = os.path.join(room, f"limited{size}")
        ran = subprocess.run([program.path, "live", "--updates", updates, "--requests", "/dev/null", "--journal", journal],
                             capture_output=True, preexec_fn=lambda: resource.setrlimit(resource.RLIMIT_FSIZE, (size, size)))
        with open(journal, encoding="ascii") as kept:
            text = kept.read()
        last = f"batch {applied + 1} refused: journal {size - lengths[applied]}\n" if applied < most else ""
        checks.same(f"a journal of at most {size} bytes", (ran.returncode, ran.stdout.decode(), ran.stderr, text),
                    (2 if last else 0, f"applied {applied}\n{last}", b"", texts[most][:size]))
    for shell, ended in [("", (-signal.SIGXFSZ, b"")), ("trap '' XFSZ;", (3, b"routed: stopped\n"))]:
        with open(os.path.join(room, "out"), "wb") as out, open(os.path.join(TOP, "examples/abilene.rows"), "rb") as source:
            ran = subprocess.run(["sh", "-c", f'{shell} ulimit -c 0; ulimit -f 1; exec "$1" solve', "sh", program.path], stdin=source,
                                 stdout=out, stderr=subprocess.PIPE)
        checks.same(f"standard output at the limit of a file's size: {shell}", (ran.returncode, ran.stderr), ended)


def closed(program, checks):
    """Help and a refused command line have the status 1, also where nobody can be told."""
    for words in [["--help"], ["live", "--help"], ["audit", "--help"], ["--version"], [], ["solve", "--none"], ["batch"],
                  ["live", "--workers", "65"], ["audit"]]:
        told = program.run(words)
        checks.true(f"status 1 and words: {words}", told[0] == 1 and told[1] == b"" and told[2], told)
        ran = subprocess.run(["sh", "-c", 'exec "$@" 2>&-', "sh", program.path, *words], capture_output=True)
        checks.same(f"standard error is closed: {words}", (ran.returncode, ran.stdout), (1, b""))
        with open("/dev/full", "wb") as full:
            ran = subprocess.run([program.path, *words], stdout=subprocess.PIPE, stderr=full)
        checks.same(f"standard error is full: {words}", (ran.returncode, ran.stdout), (1, b""))
