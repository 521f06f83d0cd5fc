"""The place of `routed-tools listen --show`: what it shows, that nothing is published there, that it delays nobody; and the tool `show`."""
import collections
import json
import os
import random
import subprocess
import sys
import tempfile
import threading
import time

from checks import TOOLS, TOP
from program.serving import BATCHES, PATIENCE, ROUTERS, batches_of
from reference import changes
from reference.runs import publish, snapshot_of, whole_batches
from reference.versions import Versions
from tools.fronts import MARK, Connection, Front
from tools.reading import eventually, figures_of

from routed.front import showing

TRIES, LONGEST_WAIT = 2000, 5  # seconds for a row or a batch beside a hostile connection, on a machine with much other work
SHORT = [sys.executable, "-c", f"import sys; sys.path.insert(0, {os.path.join(TOP, 'python')!r}); from routed.front import showing; "
         "showing.SECONDS = 2; from routed.tools import main; sys.exit(main(['listen', *sys.argv[1:]]))"]


def seen(program, room, *words, **how):
    return Front(program, room, "--show", os.path.join(room, "show"), "--metrics", os.path.join(room, "metrics"), *words, **how)


def answer_of(text, version, run=""):
    """What a viewer reads of a journal of so many batches, by tests/reference/formats.py."""
    return f"version {version}\n{run}{snapshot_of(publish(whole_batches(text))[0][-1])}snapshot end\n"


def shows(program, checks, versions, room):
    """A viewer reads what the connection for updates reads, at each version; whole batches alone."""
    batches = batches_of(versions)
    with seen(program, room, "--run", "7") as front:
        updating, viewing = Connection(front.updates), Connection(os.path.join(room, "show"))
        viewing.say("snapshot\nsnapshot\r\n")
        checks.same("of nothing", viewing.hear(6), "version 0\nrun 7\nsnapshot end\n" * 2)
        for at, batch in enumerate(batches[:6], 1):
            updating.talk(batch)
            wanted = answer_of(versions.texts[at], at, "run 7\n")
            viewing.say("snapshot\n")
            checks.same(f"at version {at}", viewing.hear(wanted.count("\n")), wanted)
        updating.say("".join(batches[6].splitlines(keepends=True)[:-1]) + "snapshot\n")
        checks.same("the connection for updates", updating.hear(wanted.count("\n")), wanted)
        viewing.say("snapshot\n" * 3 + "snap")
        checks.same("open changes aren't shown, and a half-closed connection reads on", viewing.leave(), wanted * 3)
        checks.same("its permissions", oct(os.stat(os.path.join(room, "show")).st_mode & 0o777), "0o600")


def at_once(program, checks, versions, room):
    """Many viewers, snapshots of the updates and batches at the same time: each text is that of its version."""
    batches, found, faults = batches_of(versions)[:30], [], []
    with seen(program, room) as front:
        updating, done = Connection(front.updates), threading.Event()

        def view():
            viewing = Connection(os.path.join(room, "show"))
            while not done.is_set():
                viewing.say("snapshot\n")
                lines = [viewing.lines.next()]
                while lines[-1] != "snapshot end\n":
                    lines.append(viewing.lines.next())
                found.append("".join(lines))
                time.sleep(0.02)

        threads = [threading.Thread(target=view, daemon=True) for _ in range(8)]
        for thread in threads:
            thread.start()
        for at, batch in enumerate(batches, 1):
            wanted = f"version {at}\n" + (answer_of(versions.texts[at], at) if at % 10 == 0 else "")
            updating.say(batch + ("snapshot\n" if at % 10 == 0 else ""))
            if updating.hear(wanted.count("\n")) != wanted:
                faults.append(at)
            time.sleep(0.02)
        done.set()
        for thread in threads:
            thread.join(PATIENCE)
        checks.same("batches and snapshots of the updates beside viewers", faults, [])
        texts = {at: answer_of(versions.texts[at], at) for at in {int(text.split()[1]) for text in found}}
        checks.same("texts that aren't those of their version", [text for text in found if text != texts[int(text.split()[1])]][:1], [])
        checks.true("viewers saw several versions", len(found) > 8 and len(texts) > 1, (len(found), len(texts)))


def tries_of(draw):
    """Bytes that would publish a batch, end the server's rows, or ask something, where they reached the server."""
    rows = changes.script(draw) if draw.random() < 0.5 else "node,1.1.1.1,0\nend,2,1\n"
    kind = draw.randrange(6)
    if kind == 0:
        return f"snapshot\n{rows}"
    if kind == 1:
        return rows.replace("\n", "\r")
    if kind == 2:
        return f'"{rows}'
    if kind == 3:
        return draw.choice(["GET / HTTP/1.1\r\n\r\n", "run\n", "snapshot", "snapshot \n", "\n", "\0" * 100, "x" * 70000,
                            f"{MARK}snapshot\n"])
    return rows if kind == 4 else rows[:draw.randrange(1, len(rows))]


def hostile(program, checks, versions, room):
    """2,000 connections that try to publish and hang, and some that ask for snapshots and don't read: nothing is published, and each
    batch and each ask of others has its line soon."""
    draw, waits, batches = random.Random(2000), [], batches_of(versions)
    with seen(program, room, "--log-level", "error") as front:
        updating, asking, place = Connection(front.updates), Connection(front.ask), os.path.join(room, "show")
        held = [Connection(place) for _ in range(showing.EACH // 2)]
        for one in held:
            one.say("snapshot\n" * 7000)  # and doesn't read
        published, lines = 0, []
        for at in range(TRIES):
            try:
                one = Connection(place)
                one.say(tries_of(draw))
                if at % 4 == 0:
                    lines.append(one.leave()[-60:])
                one.socket.close()
            except OSError:  # it was ended, or told busy, already
                pass
            if at % 50 == 0:
                begun = time.monotonic()
                published += 1
                checks.same(f"batch {published} beside try {at}", updating.talk(batches[published - 1]), f"version {published}\n")
                asking.talk(f"{versions.asks[0]}\n")
                waits.append(time.monotonic() - begun)
        checks.same("what is published", front.kept(), versions.texts[published])
        checks.same("the line of an ask", asking.talk(f"{versions.asks[0]}\n"), f"{versions.replies[published][0]}\n")
        checks.true("no batch with an ask waits for long", max(waits) < LONGEST_WAIT, max(waits))
        checks.true("tries are refused", sum(line.endswith("refused\n") for line in lines) > 100, collections.Counter(lines).most_common(5))
        figures = figures_of(room)
        checks.true("they are counted", figures["routed_cut_off_total", "line"] > 100 and figures["routed_exceptions_total", None] == 0,
                    figures["routed_cut_off_total", "line"])


def slow(program, checks, versions, room):
    """One that doesn't read, or says nothing, is ended at the bound of time; over the bound of one peer a connection reads `busy`."""
    links = "".join(f"put,10.0.{at // 200}.{at % 200 + 1},10.1.{at // 200}.{at % 200 + 1},10.9.9.9,10.2.{at // 200}.{at % 200 + 1},1,0x0,"
                    + ",".join(["18446744073709551615"] * 8) + "\n" for at in range(100))
    with seen(program, room, tool=SHORT) as front:
        checks.same("a large network", Connection(front.updates).talk(f"{links}end,1,100\n"), "version 1\n")
        place = os.path.join(room, "show")
        silent, unread = Connection(place), Connection(place)
        unread.say("snapshot\n" * 7000)
        checks.same("one that reads a little", unread.lines.next(), "version 1\n")
        checks.same("one that says nothing", silent.rest(), "")
        eventually(checks, "both are ended as idle", lambda: figures_of(room).get(("routed_cut_off_total", "idle")), 2)
        size = len("".join(unread.lines.rest()))
        checks.true("the one reads less than was asked for", 0 < size < 100 * len(links), size)
        held = [Connection(place) for _ in range(showing.EACH)]
        checks.same("over the bound of one peer", Connection(place).rest(), "busy\n")
        checks.same("those are", [one.rest() for one in held], [""] * showing.EACH)
    checks.same("the bounds", (showing.MOST, showing.EACH, showing.SECONDS), (32, 16, 30))


def tool(program, checks, versions, room):
    """What `show` refuses, its filters and JSON; docs/run/ASK.md has its tables."""
    names, groups, kept = (os.path.join(room, name) for name in ("names", "groups", "kept"))
    for path, text in ((names, "1.1.1.1 One\n2.2.2.2 Two\n"), (groups, "0 gold\n"), (kept, "version 1\nput,1\n")):
        with open(path, "w", encoding="utf-8") as file:
            file.write(text)
    free, place = ",".join(["1000"] * 7), os.path.join(room, "show")

    def show(*words, status=0):
        ran = subprocess.run([TOOLS, "show", place, *words], capture_output=True, text=True, timeout=PATIENCE)
        checks.same(f"the status of show {' '.join(words)}", (ran.returncode, "Traceback" in ran.stderr), (status, False))
        return ran.stdout if status == 0 else ran.stderr

    with seen(program, room) as front:
        Connection(front.updates).talk(
            f"put,1.1.1.1,10.0.0.1,2.2.2.2,10.0.0.2,10,0x1,{free},500\nput,2.2.2.2,10.0.0.2,1.1.1.1,10.0.0.1,10,0x2,{free},1000\n"
            f"put,2.2.2.2,10.0.1.1,3.3.3.3,10.0.1.2,10,0x0,{free},1000\nnode,3.3.3.3,0\nend,1,4\n")
        found = json.loads(show("--json", "--names", names, "--groups", groups))
        checks.same("links in JSON", [(it["name"], it["neighbor_name"], it["groups"], it["unreserved"][7], it["one-way"])
                                      for it in found["links"]], [("One", "Two", ["gold"], 500, False), ("Two", "One", ["1"], 1000, False),
                                                                  ("Two", "3.3.3.3", [], 1000, True)])
        for words, count in ((["--router", "One"], 2), (["--group", "gold"], 1), (["--below", "8k"], 1), (["--below", "1001B"], 3),
                             (["--below", "8k", "--priority", "0"], 0)):
            told = json.loads(show("--json", "--names", names, "--groups", groups, *words))
            checks.same(f"links with {words}", len(told["links"]), count)
        checks.same("marks", json.loads(show("marks", "--json")), {"version": 1, "marks": [{"router": "3.3.3.3", "name": "3.3.3.3",
                                                                                            "has_links": True}]})
        checks.same("routers", [(it["router"], it["links"], it["one-way"], it["marked"], it["unreserved"])
                                for it in json.loads(show("routers", "--json"))["routers"]],
                    [("1.1.1.1", 1, 0, False, 500), ("2.2.2.2", 2, 1, False, 2000), ("3.3.3.3", 0, 0, True, 0)])
        for words, line in ((["--router", "Three"], "show: 'Three' is no address, and no name of a file of names\n"),
                            (["diff", kept], f"show: {kept}: the snapshot has no line `snapshot end`, so it isn't whole\n"),
                            (["diff"], "show: FILE is wanted by `diff`, and by nothing else\n"),
                            (["--names", groups], f"show: {groups}: line 1: '0' is no address; a line is an address and its name\n")):
            checks.same(f"show {words}", show(*words, status=2), line)
        checks.same("no such file", show("diff", "absent", status=1),
                    "show: absent: No such file or directory; give the path of a file that is there\n")


def shown(program, checks):
    draw = random.Random(16)
    asks = [f"ask,{at},10.0.0.{at},10.0.0.{(at * 5 + 1) % ROUTERS},0,5,0x0,0x0,0x0," for at in range(ROUTERS)]
    versions = Versions(changes.updates(draw, BATCHES, ROUTERS), asks)
    with tempfile.TemporaryDirectory() as room:
        checks.parts_in(room, (shows, at_once, hostile, slow, tool), program, checks, versions)
