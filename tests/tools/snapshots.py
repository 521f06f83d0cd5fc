"""Snapshots of the running journal, which `routed-tools listen` tells, and journals that grow or have failed."""
import itertools
import os
import re
import resource
import signal
import threading

from program.serving import BATCHES, PATIENCE, ROUTERS, batches_of, judged, wait_for
from reference.runs import publish, snapshot_of, whole_batches
from tools.fronts import Connection, Front, admitted, busy


def network_of(versions, version):
    """The text of a snapshot there, by tests/reference/formats.py."""
    return snapshot_of(publish(whole_batches(versions.texts[version]))[0][-1])


def answer_of(versions, version):
    return f"version {version}\n{network_of(versions, version)}snapshot end\n"


def snapshot(program, checks, versions, room):
    """The row `snapshot` is answered in its place, at the version of the rows before it."""
    batches, ask = batches_of(versions), f"{versions.asks[0]}\n"
    with Front(program, room, journal="./journal", cwd=room) as front:
        updating = Connection(front.updates)
        updating.say("snapshot\nsnapshot\r\n")
        checks.same("snapshots of nothing", updating.hear(4), "version 0\nsnapshot end\n" * 2)
        wanted, rows = "", ""
        for at, batch in enumerate(batches[:6], 1):
            rows += batch + "snapshot\n" * (at % 2)
            wanted += f"version {at}\n" + (answer_of(versions, at) if at % 2 else "")
        updating.say(rows)
        checks.same("snapshots among batches", updating.hear(wanted.count("\n")), wanted)
        *most, last = batches[6].splitlines(keepends=True)
        updating.say("".join(most) + "snapshot\n" + last + ask)
        wanted = answer_of(versions, 6) + f"version 7\n{versions.replies[7][0]}\n"
        checks.same("open changes aren't in it, and stay open", updating.hear(wanted.count("\n")), wanted)
        updating.say("snapshot\n" * 20)  # and is gone
        updating.socket.close()
        updating, line = admitted(front.updates, ask)
        checks.same("the next connection", line, f"{versions.replies[7][0]}\n")
        updating.say("".join(batches[7:]) + "snapshot\nsnap")
        wanted = "".join(f"version {at}\n" for at in range(8, BATCHES + 1)) + answer_of(versions, BATCHES)
        checks.same("a half-closed connection", updating.leave(), wanted)
        checks.same("the journal beside snapshots", front.kept(), versions.texts[-1])
        taken = Connection(front.ask)
        checks.true("where clients ask it is no row", re.fullmatch(r"row \d+ refused: kind\n", taken.talk("snapshot\n")))


def beside_asks(program, checks, versions, room):
    """Snapshots, batches and many asks at once."""
    with Front(program, room) as front:
        told, done, found = [0], threading.Event(), [[] for _ in range(4)]

        def ask_on(lines):
            taken, at = Connection(front.ask), itertools.count()
            while not done.is_set() or len(lines) % ROUTERS:
                before = told[0]
                lines.append((before, taken.talk(f"{versions.asks[next(at) % ROUTERS]}\n")))

        threads = [threading.Thread(target=ask_on, args=(lines,), daemon=True) for lines in found]
        for thread in threads:
            thread.start()
        updating = Connection(front.updates)
        for number, batch in enumerate(batches_of(versions)[:24], 1):
            updating.say(f"{batch}snapshot\n" if number % 6 == 0 else batch)
            wanted = f"version {number}\n" + (answer_of(versions, number) if number % 6 == 0 else "")
            checks.same(f"batch {number} beside asks", updating.hear(wanted.count("\n")), wanted)
            told[0] = number
        done.set()
        for thread in threads:
            thread.join(PATIENCE)
        for number, lines in enumerate(found):
            judged(checks, f"asks {number} beside snapshots", versions, lines)


def failed_journal(program, checks, versions, room):
    """Of a journal that has failed there is the snapshot at the last version, or none; never one of a batch that was refused."""
    lengths, batches = [len(text) for text in versions.texts], batches_of(versions)
    for size, whole in [(lengths[5], 5), (lengths[5] + 20, 5), (lengths[6] - 8, 5), (lengths[1] - 1, 0), (lengths[6] - 1, 5)]:
        os.mkdir(inner := os.path.join(room, str(size)))
        with Front(program, inner, preexec_fn=lambda: resource.setrlimit(resource.RLIMIT_FSIZE, (size, size))) as front:
            updating = Connection(front.updates)
            for number, batch in enumerate(batches[:whole + 2], 1):
                words = {whole + 1: f"journal {size - lengths[whole]}"}.get(number, "stopped")
                line = f"version {number}\n" if number <= whole else f"batch {number} refused: {words}\n"
                checks.same(f"batch {number} with a journal of {size} bytes", updating.talk(batch), line)
            is_cut_in_an_end = versions.texts[-1][:size].rpartition("\n")[2].startswith("end,")
            wanted = "snapshot refused: the journal has failed inside an end row\n" if is_cut_in_an_end else answer_of(versions, whole)
            updating.say(f"snapshot\n{versions.asks[0]}\n")
            checks.same(f"a snapshot of a journal of {size} bytes", updating.leave(), f"{wanted}{versions.replies[whole][0]}\n")
            checks.same(f"a journal of {size} bytes", front.kept(), versions.texts[-1][:size])


def failed_snapshots(program, checks, versions, room):
    """A snapshot that can't be made is refused by a line, and the connection goes on; one that takes long keeps nobody waiting."""
    ask, reply = f"{versions.asks[0]}\n", f"{versions.replies[0][0]}\n"

    class Wrapped:
        path = os.path.join(room, "routed")

    def wrap(text):
        """The program, but for what `snapshot` does there."""
        with open(Wrapped.path, "w", encoding="ascii") as script:
            script.write(f'#!/bin/sh\n[ "$1" = serve ] && exec "{program.path}" "$@"\n{text}\n')
        os.chmod(Wrapped.path, 0o700)

    wrap("")
    with Front(Wrapped, room, "--clients", "2") as front:
        updating, taken = Connection(front.updates), Connection(front.ask)
        for text, line in [
            ("echo put,1; echo 'routed: journal: read: Input/output error (os error 5)' >&2; echo 'routed: stopped' >&2; exit 3",
             "routed: journal: read: Input/output error (os error 5)"),
            ("echo too many rows; exit 2", "too many rows"), ("exit 3", "status 3"), ("echo put,1; kill -9 $$", "signal 9"),
        ]:
            wrap(text)
            updating.say(f"snapshot\n{ask}")
            checks.same(f"a snapshot by {text}", updating.hear(2), f"snapshot refused: {line}\n{reply}")
        os.remove(Wrapped.path)
        updating.say(f"snapshot\n{ask}")
        checks.same("a snapshot where the program is gone", updating.hear(2),
                    f"snapshot refused: {Wrapped.path}: No such file or directory\n{reply}")
        hung = os.path.join(room, "hung")
        wrap(f"echo put,1; echo $$ > {hung}; exec sleep 1000")
        updating.say(f"snapshot\n{ask}")
        wait_for(lambda: os.path.exists(hung) and os.stat(hung).st_size)
        checks.same("an ask beside a snapshot that takes long", taken.talk(ask), reply)
        checks.same("a second connection beside it", busy(front.updates), "busy\n")
        front.child.terminate()
        checks.same("SIGTERM beside it", front.child.wait(PATIENCE), 128 + signal.SIGTERM)
        checks.same("what its connection reads", updating.rest(), "")
        checks.true("it has ended", gone(hung))
    for name in ("hung", "journal"):
        os.remove(os.path.join(room, name))
    with Front(Wrapped, room, "--clients", "2") as front:
        Connection(front.updates).say("snapshot\n")
        wait_for(lambda: os.path.exists(hung) and os.stat(hung).st_size)
        front.child.kill()
        front.child.wait()
        checks.true("it ends where the front is killed", gone(hung))


def gone(file):
    """Whether the process whose number is in the file ends."""
    with open(file, encoding="ascii") as kept:
        number = int(kept.read())

    def is_gone():
        try:
            with open(f"/proc/{number}/stat", encoding="latin-1") as stat:
                return stat.read().rpartition(")")[2].split()[0] == "Z"
        except OSError:
            return True

    wait_for(is_gone)
    return is_gone()
