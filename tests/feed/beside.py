"""The feed beside the real program: `solve`, `serve` and `routed-tools listen`, its words, and `--once`."""
import contextlib
import os
import re
import socket
import subprocess
import tempfile
import time

from feed.lab import lab_rows, recorded
from feed.played import A, A_B, B, BROKEN, BROKEN_DROPS, B_A, CHAIN, CHAIN_ROWS, FEED, IN_PROCESS, PAIR, PATIENCE, Feed, Router
from feed.played import going_on, removal
from feed.played import router_lsa, te_lsa, update


def until(test, what):
    """Waits until the condition holds, and returns what it gave."""
    end = time.monotonic() + PATIENCE
    while not (found := test()):
        if time.monotonic() > end:
            raise AssertionError(f"{what} didn't come")
        time.sleep(0.02)
    return found


def to_front(router, updates):
    """A feed at the place of updates of a front, once that of the feed before is free."""
    while True:
        feed = Feed(router, "--hold", "1", command=("--to", updates), is_accepted=False)
        until(lambda: feed.process.poll() is not None or router.is_waiting(), "a feed")
        if feed.process.poll() is None:
            router.accept()
            return feed
        if not feed.ended()[2].endswith("answered: busy\n"):
            raise AssertionError(feed.said.decode())


def beside_server(program, checks):
    """A feed is started again beside a running `routed serve`, and learns the database from its journal. Then the server ends."""
    begun = "\n".join([*CHAIN_ROWS, "end,1,4\n"])
    with tempfile.TemporaryDirectory() as room, contextlib.ExitStack() as clean:
        path = os.path.join(room, "day.journal")
        server = subprocess.Popen([program.path, "serve", "--journal", path, "--client", "/dev/null=/dev/zero"],
                                  stdin=subprocess.PIPE, stdout=subprocess.PIPE)
        clean.callback(server.wait)
        clean.callback(server.kill)
        router = Router()

        def started(*words):
            given = [*IN_PROCESS, "-1", "-1", "--port", str(router.port), "--hold", "1", *words]
            return subprocess.Popen(given, stdin=server.stdout, stdout=server.stdin, stderr=subprocess.PIPE, text=True)

        def journal():
            with open(path, encoding="ascii") as file:
                return file.read()

        feed = started()
        router.accept()
        router.send(CHAIN)
        until(lambda: journal() == begun, "the first batch")
        feed.kill()
        feed.communicate()
        router.hang_up()
        feed = started()
        said = feed.communicate(timeout=PATIENCE)[1]
        checks.true("without the journal it ends", feed.returncode == 1 and "its database isn't known: give --journal FILE" in said, said)
        feed = started("--journal", path)
        router.accept()
        router.send(BROKEN)
        wanted = begun + "\n".join([*BROKEN_DROPS, "end,2,2\n"])
        until(lambda: len(journal()) >= len(wanted), "the second batch")
        checks.same("with it, what went is dropped, and nothing else is written", journal(), wanted)
        server.kill()
        said = feed.communicate(timeout=PATIENCE)[1]
        checks.same("the server is killed", (feed.returncode, said),
                    (1, going_on(1, 4, 0, 1) + "ospf: standard input and output: the program ended\n"))


def with_program(program, checks):
    """Beside the real program: as a command, with asks; at its limit of routers; and many changes."""
    ask = f"ask,7,{A},{B},0,1000,0x0,0x0,0x0,"
    router = Router()
    feed = Feed(router, command=(program.path, "solve"))
    router.send(PAIR)
    feed.say("put,1.1.1.1,10.0.0.0\nask,1,2\"\nask,1\nask,2")
    checks.same("asks that are refused", (feed.line(), feed.line()), ("row 2 refused: fields", "row 3 refused: fields"))
    end, reply = time.monotonic() + PATIENCE, None
    while time.monotonic() < end and "none" not in (reply or "") and "route" not in (reply or ""):
        feed.say(ask)
        reply = feed.line()
    checks.same("an ask is answered from what was fed", reply, "ask 7 v1 route cost=7 hops=1 again=no ero=000c140101080a0000012000")
    router.send(removal(te_lsa(A, A_B, B, B_A)))
    while time.monotonic() < end and reply.split()[2] == "v1":
        feed.say(ask)
        reply = feed.line()
    checks.same("and after a change", reply, "ask 7 v2 none")
    checks.same("other rows aren't passed on", feed.end(), "ospf: no ask row, and not passed on: put,1.1.1.1,10.0.0.0\n"
                "ospf: no ask row, and not passed on: ask,1,2\"\n")

    router = Router()
    feed = Feed(router, command=(program.path, "solve", "--except"))
    router.send(PAIR)
    ask, end, reply = f"except,8,{A},{B},0,1000,0x0,0x0,0x0,,", time.monotonic() + PATIENCE, ""
    while time.monotonic() < end and " v1 " not in (reply or ""):
        feed.say(f"{ask}192.0.2.1/32i")
        reply = feed.line()
    feed.say(f"{ask}{A_B}/32i")
    checks.same("rows that exclude are passed on", (reply, feed.line()),
                ("except 8 v1 route cost=7 hops=1 again=no ero=000c140101080a0000012000", "except 8 v1 none"))
    checks.same("and nothing is said of them", feed.end(), "")

    names = [f"9.0.{n >> 8}.{n & 255}" for n in range(1026)]
    ends = [(f"10.{n >> 8}.{n & 255}.1", f"10.{n >> 8}.{n & 255}.2") for n in range(1025)]
    links = [[] for _ in names]
    for n, (local, remote) in enumerate(ends):
        links[n].append((names[n + 1], local, 1))
        links[n + 1].append((names[n], remote, 1))
    play = update(*[router_lsa(name, *pairs) for name, pairs in zip(names, links)],
                  *[te_lsa(names[n], local, names[n + 1], remote, number="1.0.0.1") for n, (local, remote) in enumerate(ends)],
                  *[te_lsa(names[n + 1], remote, names[n], local, number="1.0.0.2") for n, (local, remote) in enumerate(ends)])
    router = Router()
    feed = Feed(router, command=(program.path, "solve"))
    router.send(play)
    seen, deadline = "", time.monotonic() + PATIENCE
    # The row past the limit is tried alone at last: two links lead to the 1,025th and the 1,026th router, and two from them.
    wanted = [f"put {names[1023]} {ends[1023][0]}", f"put {names[1024]} {ends[1023][1]}", f"put {names[1024]} {ends[1024][0]}",
              f"put {names[1025]} {ends[1024][1]}"]
    while time.monotonic() < deadline and feed.process.poll() is None and not all(f": {each} is left out" in seen for each in wanted):
        feed.hear(1)
        seen = feed.said.decode()
    feed.end()
    found = sorted(re.findall(r"^ospf: batch \d+ refused: routers: (put \S+ \S+) is left out$", seen, re.M))
    checks.same("past the limit of routers the rest is put", found, sorted(wanted))


def once(program, checks):
    """The present network as one journal, which the program takes."""
    def ran(data, *words):
        router = Router()
        feed = Feed(router, "--once", *words)
        router.send(data)
        feed.go(1.0)
        out, said = feed.process.communicate()
        return feed.process.returncode, out.decode(), said.decode()

    base = b"".join(data for _, data in recorded()["base"])
    status, journal, said = ran(base, "--verbose")
    checks.same("the lab as a journal", (status, journal), (0, "\n".join([*lab_rows(), "end,1,16\n"])))
    checks.true("what is left out is said", said.endswith("ospf: 16 links; left out: none\n"), said)
    request = "ask,1,10.0.0.1,10.0.0.6,0,100000000,0x0,0x0,0x0,\n"
    checks.same("and the program answers from it", program.batch(journal, request), (0, b"version 1\nask 1 v1 route cost=31 hops=3 "
                b"again=no ero=001c140101080a010d02200001080a012303200001080a0138022000\n", b""))
    checks.same("a network of nothing", ran(b""), (0, "", ""))
    closed = socket.create_server(("127.0.0.1", 0))
    port = closed.getsockname()[1]
    closed.close()
    ended = subprocess.run([*FEED, "--port", str(port), "--once"], capture_output=True, text=True)
    checks.same("no router", (ended.returncode, ended.stdout, ended.stderr),
                (1, "", f"ospf: no connection to 127.0.0.1 port {port}: Connection refused\n"))
    with socket.create_server(("127.0.0.1", 0)) as mute:
        port = mute.getsockname()[1]
        ended = subprocess.run([*FEED, "--port", str(port), "--once"], capture_output=True, text=True)
    wanted = rf"ospf: no connection to 127\.0\.0\.1 port {port}: it doesn't connect back to port 5\d{{4}}: timed out\n"
    checks.true("a router that doesn't connect back", ended.returncode == 1 and re.fullmatch(wanted, ended.stderr), ended)
    with open("/dev/full", "wb") as full:
        ask = f"ask,7,{A},{B},0,1000,0x0,0x0,0x0,\n"
        ended = subprocess.run([*FEED, "--port", "9", "--", program.path, "solve"], input=ask, stdout=full, stderr=subprocess.PIPE,
                               text=True)
    checks.same("standard output is full", (ended.returncode, ended.stderr.splitlines()[-1:]),
                (1, ["ospf: standard output: write: No space left on device"]))


def words(program, checks):
    """Words that are refused, programs that aren't there or end, and a second feed behind the first."""
    def ran(*given):
        return subprocess.run([*FEED, *given], stdin=subprocess.DEVNULL, capture_output=True, text=True)

    for given in (["--router", ""], ["--router", 64 * "a"], ["--router", b"\xff"], ["--router", "a..b"], ["--port", "0"],
                  ["--port", "65536"], ["--collect", "-1"], ["--hold", "nan"], ["--collect", "inf"], ["--twice"]):
        found = ran(*given)
        checks.true(f"refused: {given}", found.returncode == 2 and found.stdout == "" and "Traceback" not in found.stderr, found)
    for command, why in [(["/nowhere/routed"], "can't start /nowhere/routed: No such file or directory"),
                         (["/etc"], "can't start /etc: Permission denied"), (["true"], "true: the program ended"),
                         (["echo", "a b"], "echo 'a b': its version was asked for, and it answered: a b")]:
        found = ran("--port", "9", "--", *command)
        checks.same(f"a program that isn't there: {command}", (found.returncode, found.stdout, found.stderr), (1, "", f"ospf: {why}\n"))
    router = Router()
    for turn in (1, 2):
        feed = Feed(router, command=("--", program.path, "solve"))
        router.send(PAIR)
        end, reply = time.monotonic() + PATIENCE, ""
        while time.monotonic() < end and " v1 " not in (reply or ""):
            feed.say(f"ask,0,{A},{B},0,1,0x0,0x0,0x0,")
            reply = feed.line()
        feed.process.stdin.write(f"ask,{turn},{A},{B},0,1,0x0,0x0,0x0,".encode())
        feed.process.stdin.close()
        checks.same(f"feed {turn} of a router, and an ask without a line feed", feed.line(),
                    f"ask {turn} v1 route cost=7 hops=1 again=no ero=000c140101080a0000012000")
        feed.process.stdin = None
        checks.same(f"feed {turn} ends by a signal", (feed.end(), feed.process.returncode), ("", 0))
