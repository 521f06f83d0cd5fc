"""`routed serve`: 64 clients at once beside updates, clients that stop, and kills at any moment.

100 runs are killed, every other one while its journal is written byte by byte, every tenth by SIGTERM. The journal that is left is a
prefix of the updates, with all batches whose version was printed. Each reply that was read is the reference's at its version, which is
no older than the last one that was printed before its row.
"""
import contextlib
import fcntl
import itertools
import os
import random
import re
import resource
import signal
import subprocess
import tempfile
import threading
import time

from program.listed import listed
from program.refusal import COMPILER, Refuser
from program.sent_ahead import sent_ahead
from program.served_bytes import streams
from program.serving import AT, BATCHES, CLIENTS, MOMENT, PATIENCE, ROUTERS, Serving, ask_on, batches_of, circuit_at, judged, reply_at
from program.serving import wait_for
from program.sessions import sessions
from reference import changes
from reference.versions import Versions

SILENT = 600  # requests by a client that doesn't read, more than its pipes hold
NARROW = 4096  # bytes that these hold
LONGEST = 1 << 20  # the most bytes of a client's line
REFUSED, AT_ONCE = 70_000, 500  # rows of one stream that are refused, and those of them that are sent before their lines are read
FRESH = ((2, 1500), (CLIENTS, 100))  # the clients of a run, and its batches
KILLS, TERMINATED = 100, 10  # runs that are killed, and every so many of them by SIGTERM


def served(program, checks):
    start = time.monotonic()
    draw = random.Random(8)
    updates = changes.updates(draw, BATCHES, ROUTERS)
    asks = [f"ask,{at},10.0.0.{at},10.0.0.{(at * 5 + 1) % ROUTERS},{at % 8},{draw.choice([0, 5])},0x0,0x0,0x0," for at in range(ROUTERS)]
    versions = Versions(updates, asks)
    with tempfile.TemporaryDirectory() as room:
        def folder(name):
            os.mkdir(os.path.join(room, name))
            return os.path.join(room, name)

        dialogue(program, checks, folder("dialogue"))
        patient(program, checks, folder("patient"))
        unfit(program, checks, folder("unfit"))
        longest(program, checks, folder("longest"))
        many(program, checks, folder("many"), versions)
        for clients, batches in FRESH:
            fresh(checks, Serving(program, folder(f"fresh{clients}"), clients), clients, batches)
        silent(program, checks, folder("silent"), versions)
        sent_ahead(program, checks, folder("sent_ahead"))
        limited(program, checks, folder("limited"), versions)
        devices(program, checks, folder("devices"))
        closed(program, checks, folder("closed"))
        hung_up(program, checks, folder("hung_up"))
        streams(program, checks, folder("streams"), draw)
        refusals(program, checks, folder("refusals"))
        listed(program, checks, folder("listed"))
        sessions(program, checks, os.path.join(room, "sessions"))
        kills(program, checks, folder("kills"), versions, draw)
    print(f"served: {CLIENTS} clients, {KILLS} kills, {time.monotonic() - start:.0f} s")


# ---- dialogues


def dialogue(program, checks, room):
    """Each line is there before the next row is sent, and a client learns what the updates have been told."""
    free = ",".join(["5"] * 8)
    puts = f"put,1.1.1.1,10.0.12.1,2.2.2.2,10.0.12.2,10,0x00000001,{free}\nput,2.2.2.2,10.0.12.2,1.1.1.1,10.0.12.1,10,0x00000001,{free}\n"
    ask, route = "ask,7,1.1.1.1,2.2.2.2,0,5,0x0,0x0,0x0,\n", "route cost=10 hops=1 again=no ero=000c140101080a000c022000\n"
    with Serving(program, room, 3, "--explain") as run:
        for number, rows, line in [
            (1, ask, "ask 7 v0 unknown-from\n"), (0, f"{puts}end,1,2\n", "version 1\n"), (1, ask, f"ask 7 v1 {route}"),
            (2, "end,2,0\n", "row 1 refused: kind\n"), (2, "put\n", "row 2 refused: fields\n"), (2, puts, "row 3 refused: kind\n"),
            (2, "drop,1.1.1.1,10.0.12.1\n", "row 4 refused: kind\n"), (2, "", "row 5 refused: kind\n"),
            (2, "\0\xff\n", "row 6 refused: kind\n"),
            (2, ask, f"ask 7 v1 {route}"), (0, ask, f"ask 7 v1 {route}"), (0, "end,3,0\n", "batch 3 refused: expected 2\n"),
            (0, "b\xe4d\n", "row 6 refused: kind\n"), (0, "drop,1.1.1.1,10.0.12.1\nend,2,2\n", "batch 2 refused: counted 1\n"),
            (0, "end,2,0\n", "version 2\n"), (1, ask, f"ask 7 v2 {route}"), (0, "node,1.1.1.1,0\n" + ask, f"ask 7 v2 {route}"),
        ]:
            checks.same(f"serve answers {rows.splitlines()[-1:]} of {number}", run.talk(number, rows), line)
        checks.same("the lines of a client end with its rows", run.leave(1), "")
        run.say(3, ask[:-1])
        checks.same("a last row without a line feed", run.leave(3), f"ask 7 v2 {route}")
        checks.same("a client ends alone", run.talk(2, ask), f"ask 7 v2 {route}")
        checks.same("changes are left open", run.end(), (["unended 1\n", "", "", ""], 2, ""))
        checks.same("the journal of a dialogue", run.kept(), f"{puts}end,1,2\nend,2,0\n")


def patient(program, checks, room):
    """However many of its rows are refused, a client or the updates are answered further."""
    with Serving(program, room, 1) as run:
        for number in (1, 0):
            wrong = None
            for first in range(1, REFUSED + 1, AT_ONCE):
                run.say(number, "x\n" * AT_ONCE)
                found = [run.hear(number) for _ in range(AT_ONCE)]
                if found != [f"row {at} refused: kind\n" for at in range(first, first + AT_ONCE)]:
                    wrong = found
                    break
            checks.same(f"{REFUSED} refused rows of stream {number}", wrong, None)
            checks.same(f"a request after them on stream {number}", run.talk(number, "ask,7,1.1.1.1,2.2.2.2,0,5,0x0,0x0,0x0,\n"),
                        "ask 7 v0 unknown-from\n")
        checks.same("the end after refused rows", run.end(), (["", ""], 2, ""))


def unfit(program, checks, room):
    """A line that is too long or a quotation mark ends its client alone, behind the lines of the rows before it, and changes no status."""
    ask, reply, said = "ask,7,1.1.1.1,2.2.2.2,0,5,0x0,0x0,0x0,\n", "ask 7 v0 unknown-from\n", ""
    cases = [("9" * (LONGEST + 1), f"a line of more than {LONGEST} bytes"), ('"', "a quotation mark"), ('ask,7"\n', "a quotation mark")]
    with Serving(program, room, len(cases) + 1, "--explain") as run:
        for number, (rows, why) in enumerate(cases, 1):
            run.say(number, ask * 2 + rows)
            checks.same(f"a client with {rows[-9:]!r}", "".join(run.lines[number].rest()), reply * 2)
            checks.same(f"another client after {rows[-9:]!r}", run.talk(len(cases) + 1, ask), reply)
            said += f"routed: client {number}: {room}/rows{number}: {why}\n"
        checks.same("the updates go on", run.talk(0, "end,1,0\n"), "version 1\n")
        checks.same("the end beside clients that aren't fit", run.end(), ([""] * (len(cases) + 2), 0, said))


def longest(program, checks, room):
    """A client's line of the most bytes is answered, and so are the rows after it."""
    with Serving(program, room, 1, "--explain") as run:
        for number, end in enumerate(["\n", "\r", "\r\n"], 1):
            checks.same(f"a line of {LONGEST} bytes before {end!r}", run.talk(1, "9" * LONGEST + end), f"row {number} refused: kind\n")
        checks.same("the end after the longest lines", run.end(), (["", ""], 2, ""))


def many(program, checks, room, versions):
    """64 clients ask at once while batches are published."""
    told, done, found = [0], threading.Event(), [[] for _ in range(CLIENTS)]
    with Serving(program, room, CLIENTS) as run:
        threads = [threading.Thread(target=ask_on, args=(run, at + 1, versions, told, done, found[at]), daemon=True)
                   for at in range(CLIENTS)]
        for thread in threads:
            thread.start()
        for number, batch in enumerate(batches_of(versions), 1):
            checks.same(f"batch {number} beside {CLIENTS} clients", run.talk(0, batch), f"version {number}\n")
            told[0] = number
            time.sleep(0.005)
        done.set()
        for thread in threads:
            thread.join(PATIENCE)
        for number, lines in enumerate(found, 1):
            judged(checks, f"client {number} of {CLIENTS}", versions, lines)
        named = {AT.match(line)[1] for lines in found for _, line in lines if AT.match(line)}
        least = min(map(len, found))
        checks.true(f"{CLIENTS} clients ask all the while", least >= ROUTERS and len(named) > BATCHES // 4, (least, sorted(named, key=int)))
        checks.same(f"the end of {CLIENTS} clients", run.end(), ([""] * (CLIENTS + 1), 0, ""))
        checks.same(f"the journal of {CLIENTS} clients", run.kept(), versions.texts[-1])


def silent(program, checks, room, versions):
    """A client that doesn't read, and one that closes its output, keep nobody waiting, and are all right themselves."""
    with Serving(program, room, 3, "--explain") as run:
        for end in (run.rows[1], run.lines[1].file):
            fcntl.fcntl(end, fcntl.F_SETPIPE_SZ, NARROW)
        rows = "".join(f"{ask}\n" for ask in itertools.islice(itertools.cycle(versions.asks), SILENT))
        pouring = threading.Thread(target=run.say, args=(1, rows), daemon=True)
        pouring.start()
        run.close_lines(2)
        run.say(2, f"{versions.asks[0]}\n")
        found = []
        for number, batch in enumerate(batches_of(versions), 1):
            checks.same(f"batch {number} beside a client that doesn't read", run.talk(0, batch), f"version {number}\n")
            found.append((number, run.talk(3, f"{versions.asks[len(found) % len(versions.asks)]}\n")))
        judged(checks, "beside a client that doesn't read", versions, found)
        checks.true("a client that doesn't read holds its own rows up", pouring.is_alive())
        lines = [run.hear(1) for _ in range(SILENT)]
        pouring.join(PATIENCE)
        named = {judged(checks, "a client that reads late", versions, [(0, line) for line in lines])}
        checks.same("it is answered at the last version in the end", named, {BATCHES})
        checks.same("the end beside a closed client", run.end(), (["", "", ""], 0, f"routed: client 2: {room}/lines2: a write failed\n"))


# ---- faults


def limited(program, checks, room, versions):
    """A journal that reaches the limit of a file's size: the publisher stops, and clients are answered on."""
    lengths = [len(text) for text in versions.texts]
    for size, whole in [(0, 0), (lengths[1] - 1, 0), (lengths[1], 1), (lengths[5] + 20, 5)]:
        inner = os.path.join(room, str(size))
        os.mkdir(inner)
        found, limit = [], (size, size)
        with Serving(program, inner, 1, "--explain", preexec_fn=lambda: resource.setrlimit(resource.RLIMIT_FSIZE, limit)) as run:
            for number, batch in enumerate(batches_of(versions)[:whole + 4], 1):
                words = {whole + 1: f"journal {size - lengths[whole]}"}.get(number, "stopped")
                line = f"version {number}\n" if number <= whole else f"batch {number} refused: {words}\n"
                checks.same(f"batch {number} with a journal of at most {size} bytes", run.talk(0, batch), line)
                found.append((min(number, whole), run.talk(1, f"{versions.asks[len(found) % len(versions.asks)]}\n")))
            judged(checks, f"replies with a journal of at most {size} bytes", versions, found, whole)
            checks.same(f"the end with a journal of at most {size} bytes", run.end(), (["", ""], 2, ""))
            checks.same(f"a journal of at most {size} bytes", run.kept(), versions.texts[-1][:size])


def devices(program, checks, room):
    """Standard input and output that fail end the updates, and no signal ends the run: clients are answered on."""
    ask, folder = "ask,7,1.1.1.1,2.2.2.2,0,5,0x0,0x0,0x0,\n", os.open(room, os.O_RDONLY)
    reader, broken = os.pipe()
    os.close(reader)
    full = os.open("/dev/full", os.O_WRONLY)
    for name, version, stream, words in [
        ("folder", 0, {"stdin": folder}, "standard input: read: Is a directory (os error 21)"),
        ("full", 1, {"stdout": full}, "standard output: write: No space left on device (os error 28)"),
        ("broken", 1, {"stdout": broken}, "standard output: write: Broken pipe (os error 32)"),
    ]:
        for more, last in [((), "routed: stopped\n"), (("--explain",), f"routed: {words}\nrouted: stopped\n")]:
            inner = os.path.join(room, f"{name}{len(more)}")
            os.mkdir(inner)
            with Serving(program, inner, 2, *more, **stream) as run:
                wanted = f"ask 7 v{version} unknown-from\n"
                if version:
                    run.say(0, "end,1,0\nend,2,0\n")
                wait_for(lambda: run.talk(1, ask) == wanted)
                found = [run.talk(number, ask) for number in (1, 2, 1)]
                checks.same(f"answers where a stream of the updates fails: {name} {more}", found, [wanted] * 3)
                said, status, errors = run.end()
                checks.same(f"the end where a stream of the updates fails: {name} {more}", (said[-2:], status, errors, run.kept()),
                            (["", ""], 3, last, "end,1,0\n" * version))
    for end in (folder, broken, full):
        os.close(end)
    asks = os.path.join(room, "asks")
    with open(asks, "w", encoding="ascii") as file:
        file.write(ask)
    for name, path, client in [("read", room, f"{room}={asks}.out"), ("write", "/dev/full", f"{asks}=/dev/full")]:
        given = ["serve", "--client", f"/dev/null={asks}.none", "--client", client]
        for more, said in [([], ""), (["--explain"], f"routed: client 2: {path}: a {name} failed\n")]:
            found = program.run([*given, "--journal", f"{asks}.{name}{len(more)}", *more], b"end,1,0\n")
            checks.same(f"a client's {name} fails {more}", found, (0, b"version 1\n", said.encode()))


def closed(program, checks, room):
    """Standard streams that are closed: no file that the run opens is taken for one of them, so a client's rows are no updates."""
    rows = os.path.join(room, "rows")
    with open(rows, "w", encoding="ascii") as file:
        file.write("end,1,0\nask,7,1.1.1.1,2.2.2.2,0,5,0x0,0x0,0x0,\n")
    for number, (shut, status, text) in enumerate([
        ("<&-", 2, ""), (">&-", 3, "end,1,0\n"), ("2>&-", 2, "end,1,0\n"), ("<&- >&-", 2, ""), ("<&- >&- 2>&-", 2, ""),
    ]):
        journal, out = (os.path.join(room, f"{kind}{number}") for kind in ("journal", "out"))
        words = ["sh", "-c", f'exec "$@" {shut}', "sh", program.path, "serve", "--journal", journal, "--client", f"{rows}={out}"]
        ran = subprocess.run(words, input=b"end,1,0\n", stdout=subprocess.PIPE, stderr=subprocess.PIPE, timeout=PATIENCE)
        with open(journal, encoding="ascii") as kept, open(out, encoding="ascii") as lines:
            found = (ran.returncode, kept.read(), re.sub("^(ask 7 v)[01]", r"\1", lines.read(), flags=re.M))
        checks.same(f"serve with {shut}", found, (status, text, "row 1 refused: kind\nask 7 v unknown-from\n"))


def hung_up(program, checks, room):
    """A client that can't be answered lets go of its rows: who writes them sees that, and doesn't wait for the run's end."""
    rows, ask = os.path.join(room, "rows"), b"ask,7,1.1.1.1,2.2.2.2,0,5,0x0,0x0,0x0,\n"
    os.mkfifo(rows)
    words = [program.path, "serve", "--journal", os.path.join(room, "journal"), "--client", f"{rows}=/dev/full"]
    with subprocess.Popen(words, stdin=subprocess.PIPE, stdout=subprocess.PIPE) as child, open(rows, "wb", 0) as pipe:
        end, is_broken = time.monotonic() + PATIENCE, False
        while not is_broken and time.monotonic() < end:
            try:
                pipe.write(ask)
                time.sleep(0.001)
            except BrokenPipeError:
                is_broken = True
        checks.true("the rows of a client that can't be answered are let go", is_broken and child.poll() is None)
        checks.same("and the run goes on", child.communicate(b"end,1,0\n", PATIENCE)[0], b"version 1\n")
        checks.same("to its end", child.returncode, 0)


def refusals(program, checks, room):
    """What the command line refuses, and files that can't be had: nothing is made then."""
    there, missing = os.path.join(room, "there"), "error: the following required arguments were not provided:"
    with open(there, "w", encoding="ascii") as file:
        file.write("kept\n")

    def serve(words, rows=b""):
        """A run; @ stands for the folder, and a word with = is a client."""
        given = [word.replace("@", f"{room}/") for word in words]
        return program.run(["serve", *(part for word in given for part in (["--client", word] if "=" in word else [word]))], rows)

    pair, unexpected = "routed: a client is IN=OUT\n", "error: unexpected argument"

    full = f"routed: an OUT has to be empty or new: {there}\n"

    def twice(name):
        return f"routed: a file is named twice: {room}/{name}\n"

    for name, words, said in [
        ("no client", [], "routed: there are 1 to 64 clients\n"),
        ("65 clients", [f"@in{number}=@out{number}" for number in range(65)], "routed: there are 1 to 64 clients\n"),
        ("a client without =", ["--client", "@a"], pair), ("a client of no words", ["--client", ""], pair),
        ("a client without IN", ["=@b"], pair), ("a client without OUT", ["@a="], pair),
        ("one file as both", ["@a=@a"], twice("a")), ("one OUT of two", ["@a=@b", "@c=@b"], twice("b")),
        ("one IN of two", ["@a=@b", "@a=@c"], twice("a")), ("an OUT that is an IN", ["@a=@b", "@b=@c"], twice("b")),
        ("an IN that is an OUT", ["@a=@b", "@c=@a"], twice("a")), ("the journal as IN", ["@new=@a"], twice("new")),
        ("the journal as OUT", ["@a=@new"], twice("new")), ("one new file by two names", ["@a=@./a"], twice("./a")),
        ("the journal by another name", ["@a=@./new"], twice("./new")), ("an OUT with bytes", ["/dev/null=@there"], full),
        ("an OUT with bytes behind others", ["@a=@b", "/dev/null=@there"], full),
        ("another word", ["@a=@b", "more"], f"{unexpected} 'more' found"),
        ("workers", ["@a=@b", "--workers", "2"], f"{unexpected} '--workers' found"),
        ("no row at once", ["@a=@b", "--at-once", "0"], "error: invalid value '0' for '--at-once <N>': 0 is not in 1..=64"),
        ("65 rows at once", ["@a=@b", "--at-once", "65"], "error: invalid value '65' for '--at-once <N>': 65 is not in 1..=64"),
        ("two journals", ["@a=@b", "--journal", "@new"], "error: the argument '--journal <FILE>' cannot be used multiple times"),
    ]:
        status, out, errors = serve(["--journal", "@new", *words])
        checks.same(f"serve with {name}", (status, out, errors.decode()[:len(said)]), (1, b"", said))
    status, out, errors = serve(["@a=@b"])
    checks.same("serve without a journal", (status, out, errors.decode()[:len(missing)]), (1, b"", missing))
    _, _, text = program.run(["serve", "--help"])
    for word in [b"--journal", b"--client", b"--clients-from file", b"in=out", b"mkfifo", b"/dev/fd/n", b"stopped", b"status",
                 b"--explain", b"--at-once <n>", b"1 to 64", b"1,048,576"]:
        checks.true(f"help of serve names {word.decode()}", word in b" ".join(text.lower().split()), text)
    absent = "open: No such file or directory (os error 2)\n"
    for name, journal, client, why in [
        ("requests that aren't there", "@new", "@none=@out", f"a client's requests {room}/none: {absent}"),
        ("replies in no folder", "@new", "/dev/null=@none/out", f"a client's replies {room}/none/out: {absent}"),
        ("a folder as replies", "@new", "/dev/null=@", f"a client's replies {room}/: open: Is a directory (os error 21)\n"),
        ("a journal in no folder", "@none/new", "/dev/null=/dev/stdout", f"journal {room}/none/new: {absent}"),
        ("a journal that is there", "@there", "/dev/null=/dev/stdout", f"journal {there}: open: File exists (os error 17)\n"),
    ]:
        for more, said in [([], ""), (["--explain"], f"routed: {why}")]:
            found = serve(["--journal", journal, client, *more], b"end,1,0\n")
            checks.same(f"serve with {name} {more}", found, (3, b"", f"{said}routed: stopped\n".encode()))
    with open(there, encoding="ascii") as file:
        checks.same("nothing is made or changed then", (os.listdir(room), file.read()), (["there"], "kept\n"))


# ---- kills


def kills(program, checks, room, versions, draw):
    """A run that is killed at any moment leaves whole batches, or those and a beginning of one more, and what was read is right."""
    refuser, found = Refuser() if COMPILER else None, []
    for at in range(KILLS):
        inner, env = os.path.join(room, str(at)), dict(os.environ)
        os.mkdir(inner)
        if refuser and at % 2:  # every other run writes byte by byte
            env.update(LD_PRELOAD=refuser.library, REFUSE_CALL="write", REFUSE_AT="1", REFUSE_ON="1", REFUSE_SHORT="1")
        found.append(killed_run(checks, Serving(program, inner, 2, env=env), at, versions, draw))
    lengths, torn, replies = len({length for length, _, _ in found}), sum(is_torn
                                                                          for _, is_torn, _ in found), sum(count for *_, count in found)
    spread = lengths > KILLS // 3 and (refuser is None or torn > KILLS // 10) and replies > 2 * KILLS
    checks.true("the kills of served runs are spread", spread, (lengths, torn, replies))
    print(f"served: {KILLS} kills, {lengths} lengths of journals, {torn} torn, {replies} replies")


def killed_run(checks, run, at, versions, draw):
    """Kills one run: the length of its journal, whether it is torn, and how many replies were read."""
    told, done, asked = [0], threading.Event(), ([], [])
    length, signal_sent = draw.randrange(len(versions.texts[-1])), signal.SIGKILL if at % TERMINATED else signal.SIGTERM
    with run:
        threads = [threading.Thread(target=ask_on, args=(run, number, versions, told, done, asked[number - 1]), daemon=True)
                   for number in (1, 2)]
        pauses = random.Random(at) if at % 4 < 2 else None
        threads.append(threading.Thread(target=update, args=(run, versions, told, pauses), daemon=True))
        for thread in threads:
            thread.start()
        wait_for(lambda: os.stat(run.journal).st_size >= length or run.child.poll() is not None)
        time.sleep(draw.random() * draw.choice([0, MOMENT / 10, MOMENT]))
        run.killed = True
        run.child.send_signal(signal_sent)
        status = run.child.wait()
        for thread in threads:
            thread.join(PATIENCE)
        text = run.kept()
    recorded = versions.recorded(text)
    checks.true(f"the journal after kill {at} is a front of the updates", recorded is not None and status == -signal_sent,
                (status, text[-200:]))
    if recorded is None:
        return 0, False, 0
    checks.true(f"what was told before kill {at} is in the journal", told[0] <= recorded, (told, recorded))
    for lines in asked:
        judged(checks, f"what was read before kill {at}", versions, lines, recorded)
    return len(text), len(text) > len(versions.texts[recorded]), sum(map(len, asked))


def update(run, versions, told, draw):
    """Says all batches, each some moments behind the line of the one before or, without a draw, at once, and hears their lines."""
    with contextlib.suppress(BrokenPipeError):
        if not draw:
            run.say(0, versions.texts[-1])
        for batch in batches_of(versions):
            line = run.talk(0, batch if draw else "")
            if line == f"version {told[0] + 1}\n":
                told[0] += 1
            time.sleep(draw.random() * MOMENT if draw else 0)


def fresh(checks, serving, clients, batches):
    """A client that asks once `version V` was read is answered at V, even one that hasn't asked at the 19 versions before."""
    ask, stale, asked = "ask,{},1.1.1.1,2.2.2.2,0,5,0x0,0x0,0x0,\n", [], 0
    with serving as run:
        for version in range(1, batches + 1):
            told = run.talk(0, circuit_at(version))
            if told != f"version {version}\n":
                stale.append((0, version, told))
                break
            for number in range(1, clients + 1):
                if number % 2 and version % 20 != number % 20:
                    continue
                asked += 1
                line = run.talk(number, ask.format(number))
                if line != reply_at(number, version):
                    stale.append((number, version, line))
            if stale:
                break
        checks.same(f"{clients} clients are answered at the version that was read", stale, [])
        checks.true(f"{clients} clients ask", stale or asked > clients * batches // 2, asked)
        checks.same(f"the end of {clients} fresh clients", run.end(), ([""] * (clients + 1), 0, ""))
