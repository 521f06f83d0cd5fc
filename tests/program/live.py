"""`routed live`: what a run writes, and that each reply is right at its version."""
import os
import re
import resource
import signal
import subprocess
import tempfile

from checks import TOP
from program.built import ASK, LINK, status_of
from reference.versions import Versions


def live(program, checks):
    """Updates are published over a new journal while workers answer, each request at a version of its own."""
    stopped = (3, b"", b"routed: stopped\n")
    text = LINK.replace(",0x1,", ",0x00000001,") + "end,1,1\n"

    def run(updates, requests, *words, journal=None, preexec=None):
        """Status, standard output and error of a run, and what the journal then holds."""
        with tempfile.TemporaryDirectory() as room:
            names = [os.path.join(room, name) for name in ("updates", "requests")]
            for name, rows in zip(names, (updates, requests)):
                with open(name, "wb") as file:
                    file.write(rows.encode())
            kept = os.path.join(room, "journal")
            if journal is not None:
                with open(kept, "wb") as file:
                    file.write(journal)
            ran = subprocess.run([program.path, "live", "--updates", names[0], "--requests", names[1], "--journal", kept, *words],
                                 capture_output=True, timeout=900, preexec_fn=preexec)
            return (ran.returncode, ran.stdout, ran.stderr), open(kept, "rb").read() if os.path.exists(kept) else None

    one, end = LINK + "end,1,1\n", "end,2,0\ndrop,2.2.2.2,10.0.12.2\nend,3,1\nend,4,0\n"
    for name, updates, requests, lines, kept in [
        ("one batch", one, "", "applied 1\n", text),
        ("a mark", "node,1.1.1.1,0\nend,1,1\n", "", "applied 1\n", "node,1.1.1.1,0\nend,1,1\n"),
        ("marks in quotes", '"node",1.1.1.1,"1"\n"node","2.2.2.2",0\nend,1,2', "", "applied 1\n",
         "node,1.1.1.1,1\nnode,2.2.2.2,0\nend,1,2\n"),
        ("two changes of one mark", one + "node,1.1.1.1,0\nnode,1.1.1.1,1\nend,2,2\n", "", "applied 1\nbatch 2 refused: duplicate 2\n",
         text),
        ("no updates", "", ASK, "ask 7 v0 unknown-from\napplied 0\n", ""),
        ("a batch that doesn't fit", "drop,1.1.1.1,10.0.12.1\nend,1,1\n", "", "applied 0\nbatch 1 refused: absent 1\n", ""),
        ("a batch that doesn't fit behind others", one + end, "", "applied 2\nbatch 3 refused: absent 1\n", text + "end,2,0\n"),
        ("nothing", "", "", "applied 0\n", ""),
        ("torn updates", one + "end,3,0\n", ASK, "journal torn after 1\n", ""),
        ("a bad request", one, LINK, "request row 1 refused: kind\n", ""),
        ("torn updates before a bad request", "foo\n", "foo\n", "journal torn after 0\n", ""),
    ]:
        for words in [(), ("--workers", "4")]:
            found, journal = run(updates, requests, *words)
            checks.same(f"live: {name} {words}", (found, journal), ((status_of(lines.encode()), lines.encode(), b""), kept.encode()))
    checks.same("a journal that is there", run(one, ASK, journal=b"kept\n"), (stopped, b"kept\n"))
    checks.same("an empty journal that is there", run(one, ASK, journal=b""), (stopped, b""))
    with tempfile.TemporaryDirectory() as room:
        words = ["live", "--updates", "/dev/null", "--requests", "/dev/null", "--journal"]
        checks.same("a journal in no folder", program.run([*words, os.path.join(room, "none/journal")]), stopped)
        checks.same("a folder as the journal", program.run([*words, room]), stopped)
        absent = os.path.join(room, "absent")
        for flags in [["--updates", absent, "--requests", "/dev/null"], ["--updates", "/dev/null", "--requests", absent]]:
            kept = os.path.join(room, "journal")
            found = program.run(["live", *flags, "--journal", kept])
            checks.same(f"live: a file that isn't there {flags}", (found, os.path.exists(kept)), (stopped, False))

    def narrow():
        signal.signal(signal.SIGXFSZ, signal.SIG_IGN)
        resource.setrlimit(resource.RLIMIT_FSIZE, (105, 105))

    checks.same("a journal that fills up", run(one + "end,2,0\n" + "end,3,0\n", "", preexec=narrow),
                ((2, b"applied 1\nbatch 2 refused: journal 3\n", b""), (text + "end").encode()))
    told(program, checks, run)


def told(program, checks, run):
    """Each reply of a live run is right at its version; one worker's versions never fall; the journal has all batches."""
    updates = open(os.path.join(TOP, "examples/nsfnet.journal"), encoding="ascii").read()
    asks = open(os.path.join(TOP, "examples/nsfnet.requests"), encoding="ascii").read().splitlines()
    versions = Versions(updates, asks)
    for count in [1, 2, 4, 8, 64]:
        many = 50
        (status, out, err), journal = run(updates, "".join(f"{ask}\n" for ask in asks) * many, "--workers", str(count))
        lines = out.decode().splitlines()
        named = [int(re.match(r"ask \d+ v(\d+) ", line)[1]) for line in lines[:-1]]
        right = versions.are_right(lines[:-1])
        rising = all(part == sorted(part) for part in (named[worker::count] for worker in range(count)))
        checks.true(f"a live run by {count} workers", (status, err) == (0, b"") and lines[-1:] == ["applied 10"]
                    and len(named) == many * len(asks) and right and rising, (status, err, lines[-3:], right, rising))
        checks.same(f"its journal, by {count} workers", journal, updates.encode())
        again = program.batch(journal, "".join(f"{ask}\n" for ask in asks))
        wanted = "".join(f"{line}\n" for line in [*(f"version {at}" for at in range(1, 11)), *versions.replies[10]])
        checks.same(f"its journal read again, by {count} workers", again, (0, wanted.encode(), b""))
