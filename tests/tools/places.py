"""Who may connect to `routed-tools listen`, what its runs begin with, and what ends them."""
import contextlib
import os
import re
import shutil
import signal
import socket
import subprocess
import sys
import time

from checks import TOP
from program.bench_book import benched
from program.serving import PATIENCE, batches_of
from tools.fronts import LISTEN, MARK, Connection, Front, admitted
from tools.readers import dressed


def places(program, checks, versions, room):
    """A place that is none is refused, and nothing is made."""
    wrong = ["", ":8001", "::1:8001", "[::1]", "[]:80", "[::1]:65536", "65536", "100000", "localhost:", "name:x"]
    for option, those in (("--ask", wrong[:2]), ("--updates", wrong)):
        for place in those:
            given = {"--ask": "./a", "--updates": "./u", option: place}
            words = [*LISTEN, "--program", program.path, "--journal", "journal", *(word for pair in given.items() for word in pair)]
            try:
                ran = subprocess.run(words, cwd=room, stdin=subprocess.DEVNULL, capture_output=True, text=True, timeout=5)
                found = ran.returncode, ran.stdout, ran.stderr.splitlines()[-1:]
            except subprocess.TimeoutExpired as late:
                found = "it listens", late.stdout, []
            line = (f"routed-tools listen: error: argument {option}: {place!r} is no place: that is the path of a UNIX socket "
                    "(with a slash where it has a colon), a port from 0 to 65535, ADDRESS:PORT or [ADDRESS]:PORT")
            checks.same(f"{option} {place!r}", (*found, os.listdir(room)), (2, "", [line], []))
            for name in os.listdir(room):
                os.remove(os.path.join(room, name))
    with Front(program, room, ask="./a:1", cwd=room):
        checks.same("a path with a colon and a slash", Connection(os.path.join(room, "a:1")).talk(f"{versions.asks[0]}\n"),
                    f"{versions.replies[0][0]}\n")


def ports(program, checks, versions, room):
    """Port 0 is told, and IPv6 is listened on where there is some."""
    ask = f"{versions.asks[0]}\n"
    try:
        socket.create_server(("::1", 0), family=socket.AF_INET6).close()
        host = "[::1]"
    except OSError:
        host = "127.0.0.2"
        print("listened: no IPv6 here: [::1]:PORT isn't tried")
    with Front(program, room, updates="0", ask=f"{host}:0") as front:
        told = [front.first, front.said.next(), front.said.next()]
        numbers = [re.fullmatch(rf"{kind} {re.escape(at)}:([1-9]\d*)\n", line)
                   for kind, at, line in zip(("updates", "ask"), ("127.0.0.1", host), told)]
        checks.true("the ports that were chosen", all(numbers) and told[2] == "ready\n", told)
        updating, taken = Connection(("127.0.0.1", int(numbers[0][1]))), Connection((host.strip("[]"), int(numbers[1][1])))
        checks.same("connections to them", (updating.talk(versions.texts[1]), taken.talk(ask)),
                    ("version 1\n", f"{versions.replies[1][0]}\n"))


def modes(program, checks, versions, room):
    """Each socket has its mode."""
    for at, (words, wanted) in enumerate([
        ([], [0o600, 0o600]), (["--mode", "660"], [0o660, 0o660]), (["--ask-mode", "666"], [0o666, 0o600]),
        (["--updates-mode", "660"], [0o600, 0o660]),
        (["--mode", "640", "--ask-mode", "660", "--updates-mode", "0"], [0o660, 0]),
    ]):
        os.mkdir(inner := os.path.join(room, str(at)))
        with Front(program, inner, *words) as front:
            checks.same(f"modes by {words}", [os.stat(path).st_mode & 0o777 for path in (front.ask, front.updates)], wanted)
    for option, text in (("--mode", "8"), ("--ask-mode", "1000"), ("--updates-mode", "-1")):
        with Front(program, room, f"{option}={text}") as front:
            status, said = front.ended()
            checks.true(f"{option} {text}",
                        status == 2 and said.endswith(f"listen: error: argument {option}: invalid mode value: '{text}'\n"), said)


def posted(program, checks, versions, room):
    """Where updates come in, only their rows are passed on: an HTTP request publishes nothing."""
    text, ask, batches = versions.texts[1], f"{versions.asks[0]}\n", batches_of(versions)
    with socket.create_server(("127.0.0.1", 0)) as other:
        place = other.getsockname()
    with Front(program, room, updates=str(place[1])) as front:
        for name in ("POST", "PUT", "put", "end"):
            taken = Connection(place)
            taken.say(f"{name} / HTTP/1.1\r\nHost: 127.0.0.1\r\nContent-Type: text/plain\r\nContent-Length: {len(text)}\r\n\r\n{text}")
            checks.same(f"an HTTP request: {name}", taken.leave(), "refused\n")
        updating, line = admitted(place, ask)
        checks.same("and nothing is published by it", (line, front.kept()), (f"{versions.replies[0][0]}\n", ""))
        updating.leave()
        rows = ["foo", "version 1", " end,1,0", "END,1,0", "ends,1,0", "putt", "snapshots", "snapshot,1", "snapshot ", f"{MARK}end,1,0",
                "#",
                "foo\rask,1", "ask,1\rfoo", '"end",1,0', 'end,1,"0', "\0", ",", "ask\tx", "9" * 70_000]
        for number, row in enumerate(rows, 1):
            taken, line = admitted(place, ask)
            taken.say(f"{batches[number - 1]}{row}\nend,{number + 1},0\n")
            found = re.sub(r"row \d+ refused: fields\n", "", taken.rest())  # of what stands before a carriage return, which ends a row, too
            checks.same(f"a row that isn't passed on: {row[:20]!r}", found, f"version {number}\nrefused\n")
            checks.same(f"nothing behind it is: {row[:20]!r}", front.kept(), versions.texts[number])
        taken, _ = admitted(place, ask)
        taken.say("\n\r\n" + ask + "drop\nput,1\nnode\nend\nask\n" + ask)
        found = re.sub(r"row \d+", "row", taken.leave())
        reply = f"ask {ask.split(',')[1]} v{number} "
        checks.true("rows of the updates that the server refuses",
                    re.fullmatch(rf"{reply}.*\n(row refused: fields\n){{5}}{reply}.*\n", found), found)


def marks(program, checks, versions, room):
    """A byte order mark at the beginning of each connection is skipped, and of nothing else."""
    ask, reply = f"{versions.asks[0]}\n", f"{versions.replies[0][0]}\n"
    with Front(program, room, "--clients", "1") as front:
        for at in range(4):
            taken, _ = admitted(front.ask, MARK + ask)
            checks.same(f"the rest of connection {at} with a mark", taken.leave(), "")
            taken = Connection(front.ask)
            for part in (MARK[:1], MARK[1:], ask):  # byte by byte
                taken.say(part)
                time.sleep(0.02)
            checks.same(f"connection {at} with a mark", taken.leave(), reply)
            taken, line = admitted(front.ask, ask + MARK + ask)
            found = line + taken.leave()
            checks.true(f"a mark in the second row {at}", re.fullmatch(rf"{re.escape(reply)}row \d+ refused: kind\n", found), found)
            updating = Connection(front.updates)
            updating.say(f"{MARK}end,{at + 1},0\n")
            checks.same(f"updates {at} with a mark", updating.leave(), f"version {at + 1}\n")
            reply = f"ask {ask.split(',')[1]} v{at + 1} unknown-from\n"


# ---- what a run begins with, and our own client


def begun(program, checks, versions, room):
    """The batches of --begin are published before anybody is let in; where one isn't, the front ends and says which."""
    begin, ask = os.path.join(room, "begin"), f"{versions.asks[0]}\n"
    for name, text in (("as the program writes it", versions.texts[5]),
                       ("with a byte order mark, carriage returns and quotes", dressed(versions.texts[5]))):
        with open(begin, "w", encoding="utf-8", newline="") as file:
            file.write(text)
        with Front(program, room, "--begin", begin) as front:
            checks.same(f"a first ask, and the next batch, {name}",
                        (Connection(front.ask).talk(ask), Connection(front.updates).talk(batches_of(versions)[5])),
                        (f"{versions.replies[5][0]}\n", "version 6\n"))
            checks.same(f"the journal begins so: {name}", front.kept(), versions.texts[6])
        os.unlink(front.journal)
    for name, text, line in (("no rows", "foo\n", "row 1 refused: kind"),
                             ("changes without an end", versions.texts[1] + "node,1.1.1.1,0\n", "unended 1"),
                             ("another number", "end,2,0\n", "batch 2 refused: expected 1"), ("an ask", ask, "row 1 refused: kind"),
                             ("a batch that doesn't fit", "end,1,0\ndrop,9.9.9.9,9.9.9.9\nend,2,1\nend,3,0\n", "batch 2 wasn't published"),
                             ("no file", None, None)):
        if text is not None:
            with open(begin, "w", encoding="ascii") as file:
                file.write(text)
        path = begin if text is not None else os.path.join(room, "nowhere")
        with Front(program, room, "--begin", path) as front:
            checks.same(f"a beginning of {name}", (front.first, *front.ended()),
                        ("", 3, f"listen: {path}: {line or 'read: No such file or directory'}\n"))
        with contextlib.suppress(FileNotFoundError):
            os.unlink(front.journal)


def connected(program, checks, versions, room):
    """`routed-tools connect` passes rows and lines on, and ends with either side."""
    connect = [sys.executable, "-m", "routed", "connect"]
    around = {**os.environ, "PYTHONPATH": os.path.join(TOP, "python"), "PYTHONDONTWRITEBYTECODE": "1"}

    def run(place, rows, *more):
        ran = subprocess.run([*connect, place, *more], input=rows, env=around, capture_output=True, text=True, timeout=PATIENCE)
        return ran.returncode, ran.stdout, ran.stderr

    with Front(program, room, ask="127.0.0.1:0") as front:
        place, ask = front.first.split()[1], f"{versions.asks[0]}\n"
        checks.same("its place is said, and it is ready", (front.first, front.said.next()), (f"ask {place}\n", "ready\n"))
        checks.same("updates by connect", run(front.updates, versions.texts[3]), (0, "version 1\nversion 2\nversion 3\n", ""))
        checks.same("many asks by connect at a port", run(place, ask * 2000), (0, f"{versions.replies[3][0]}\n" * 2000, ""))
        with subprocess.Popen([*connect, front.updates], env=around, stdin=subprocess.PIPE, stdout=subprocess.PIPE) as child:
            child.stdin.write(b"end,4,0\n")
            child.stdin.flush()
            checks.same("a line while its rows go on", child.stdout.readline(), b"version 4\n")
            front.child.terminate()
            checks.same("it ends with the socket", child.wait(PATIENCE), 0)
        front.ended()
        for given, why in ((front.updates, "No such file or directory"), (place, "Connection refused")):
            checks.same(f"nobody listens: {why}", run(given, "", "--wait", "0"),
                        (1, "", f"connect: {given}: {why}; start the server, or give the place of one that runs\n"))
    checks.same("no place", run("a:b", "")[0], 2)


# ---- ends and causes


def server_ends(program, checks, versions, room):
    """Where the server ends under connections they read their ends, and the status is the server's."""
    with Front(program, room) as front:
        updating, taken = Connection(front.updates), Connection(front.ask)
        checks.same("before the server ends", (updating.talk(versions.texts[1]), taken.talk(f"{versions.asks[0]}\n")),
                    ("version 1\n", f"{versions.replies[1][0]}\n"))
        os.kill(front.server(), signal.SIGKILL)
        checks.same("the server is killed", (front.ended(), updating.rest(), taken.rest()),
                    ((128 + signal.SIGKILL, f"listen: {program.path} was ended by signal 9\n"), "", ""))
        checks.same("its sockets are gone", os.listdir(room), ["journal"])


def causes(program, checks, versions, room):
    """What can't be had is named: a place, a program. Commands of bench/ name it, too, and bench/book has lines where it can be had."""
    absent, path = os.path.join(room, "absent"), os.path.join(room, "updates")
    far = os.path.join(room, "9" * 120)
    with socket.create_server(("127.0.0.1", 0)) as taken:
        port = taken.getsockname()[1]
        for more, line in [
            ({"updates": f"{absent}/u"}, f"{absent}/u: bind: No such file or directory"),
            ({"ask": room}, f"{room}: bind: Address already in use"),
            ({"ask": far}, f"{far}: bind: AF_UNIX path too long"),
            ({"ask": str(port)}, f"{port}: bind: Address already in use"),
            ({"updates": f"127.0.0.1:{port}"}, f"127.0.0.1:{port}: bind: Address already in use"),
            ({"ask": "192.0.2.1:0"}, "192.0.2.1:0: bind: Cannot assign requested address"),
        ]:
            with Front(program, room, **more) as front:
                checks.same(f"a cause: {more}", (front.first, *front.ended()), ("", 3, f"listen: {line}\n"))
    class Absent:
        path = absent

    with Front(Absent, room) as front:
        checks.same("a program that isn't there", (front.first, *front.ended()), ("", 3, f"listen: {absent}: No such file or directory\n"))
    checks.same("nothing is left", os.listdir(room), [])
    with open("/dev/full", "wb") as full:
        ran = subprocess.run([*LISTEN, "--program", program.path, "--journal", f"{room}/journal", "--ask", f"{room}/ask", "--updates",
                              path],
                             stdout=full, stderr=subprocess.PIPE, text=True, timeout=PATIENCE)
    checks.same("standard output is full", (ran.returncode, ran.stderr), (3, "listen: standard output: write: No space left on device\n"))
    copy = os.path.join(room, "copy")
    for folder in ("tools", "python"):
        shutil.copytree(os.path.join(TOP, folder), f"{copy}/{folder}", ignore=shutil.ignore_patterns("__pycache__"))
    shutil.copy(os.path.join(TOP, "crates.txt"), copy)
    around = {**os.environ, "PATH": os.path.dirname(sys.executable) + ":/usr/bin:/bin", "ROUTED_PROGRAM": ""}
    ran = subprocess.run([f"{copy}/tools/routed-tools", "listen", "--journal", absent, "--ask", f"{room}/ask", "--updates", path],
                         capture_output=True, text=True,
                         env=around)
    wanted = f"listen: {copy}/crates/routed/out/routed: No such file or directory (README.md says how it is built)\n"
    checks.same("a program that isn't built", (ran.returncode, ran.stdout, ran.stderr), (3, "", wanted))
    for words in (["run"], ["serve", "--seconds", "0.1"], ["serve", "--listen"], ["book", "--only", "flooded"]):
        given = ["--routers", "4", "--links", "8", "--program", absent, *words[1:]]
        ran = subprocess.run([sys.executable, os.path.join(TOP, "bench", words[0]), *given], capture_output=True, text=True)
        found = (ran.returncode, ran.stderr)
        checks.same(f"bench/{' '.join(words)} without a program", found, (1, f"bench/{words[0]}: {absent}: No such file or directory\n"))
    benched(program, checks)
