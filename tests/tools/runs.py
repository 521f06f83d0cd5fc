"""Tests of the runs of a server: their numbers, the journals that stay, and the end of a run whose journal can't be written."""
import os
import re
import resource
import shutil
import subprocess
import sys
import tempfile
import time

from checks import TOOLS, TOP
from feed.played import Router
from pcep.beside import Run, begun, wait
from pcep.played import PATH, rows
from program.serving import PATIENCE
from tools.fronts import LISTEN, Connection, Front
from tools.kept import DEPLOY, around
from tools.reading import ASKS, FREE, PAIR, eventually, figures_of, seen

from routed import Client
from routed.model.names import Names
from routed.front import renewal, status

FIRST = PAIR + "end,1,2\n"
# listen whose look for room comes each 0.1 seconds, and finds some where a file says so.
LOOKING = f"""
import os, sys
sys.path.insert(1, {os.path.join(TOP, "python")!r})
from routed.front import listen, renewal
renewal.EVERY, renewal.room_for = 0.1, lambda journal: os.path.exists(journal + ".room")
sys.exit(listen.main())
"""
SMALL = 400  # bytes that a journal may have: the first batch, and a part of the second


def runs(program, checks):
    with tempfile.TemporaryDirectory() as room:
        checks.parts_in(room, (numbers, refused_numbers, to_a_feed, of_replies, pruned, refused_options, without_room, room_that_is_wanted,
                               renewed, not_renewed), program, checks)


# ---- numbers


def numbers(program, checks, room):
    with seen(program, room, "--run", "7") as front:
        checks.same("the lines before rows are taken", (front.first, front.said.next()), ("run 7\n", "ready\n"))
        updating, watching = Connection(front.updates), Connection(os.path.join(room, "watch"))
        checks.same("the first lines of a watcher", watching.hear(2), "run 7\nversion 0\n")
        checks.same("a batch", (updating.talk(FIRST), watching.lines.next()), ("version 1\n",) * 2)
        updating.say("snapshot\n")
        checks.same("a snapshot", updating.hear(6), f"version 1\nrun 7\n{PAIR.replace('0x1,', '0x00000001,')}end,1,2\nsnapshot end\n")
        checks.same("the figure", figures_of(room).get(("routed_run", None)), 7)
        checks.same("the first line of the screen", next(status.screen(figures_of(room), Names())), ("run", "7"))
        with Client(front.ask, watch=os.path.join(room, "watch")) as client:
            checks.same("the client for Python", (client.wait(1), client.run), (1, 7))
    inner = os.path.join(room, "without")
    os.mkdir(inner)
    with seen(program, inner) as front:
        checks.same("without the option", front.first, "ready\n")
        checks.same("no line tells it", Connection(os.path.join(inner, "watch")).hear(1), "version 0\n")
        checks.true("nor a figure", ("routed_run", None) not in figures_of(inner))
        with Client(front.ask, watch=os.path.join(inner, "watch")) as client:
            Connection(front.updates).talk(FIRST)
            checks.same("the client for Python takes that, too", (client.wait(1), client.run), (1, None))


def refused_numbers(program, checks, room):
    for word in ("0", "-1", "1000000", "x", ""):
        ran = subprocess.run([*LISTEN, "--program", program.path, "--journal", f"{room}/j", "--ask", f"{room}/a", "--updates", f"{room}/u",
                              "--run", word], capture_output=True, text=True, timeout=PATIENCE)
        checks.same(f"the run {word!r}", (ran.returncode, "argument --run" in ran.stderr, os.listdir(room)), (2, True, []))


def to_a_feed(program, checks, room):
    """A feed goes on from the snapshot of a run that has a number."""
    with Front(program, room, "--run", "3") as front:
        updating = Connection(front.updates)
        updating.talk(FIRST)
        updating.socket.close()
        router = Router()
        with subprocess.Popen([TOOLS, "feed", "--port", str(router.port), "--to", front.updates], stdin=subprocess.DEVNULL,
                              stderr=subprocess.PIPE, text=True) as feeding:
            router.accept()
            said = feeding.stderr.readline()
            feeding.terminate()
    checks.true("the feed goes on", ": going on from version 1, of 2 links and 0 marks; " in said, said)


def of_replies(program, checks, room):
    """`pcep --replies` has the number in the names of its files, and the journal of that number judges them."""
    with Run(program.path, room, listen=["--run", "7"]) as run:
        run.publish(*rows())
        client = begun(run, "127.0.14.1")
        client.ask()
        checks.same("the figure of pcep", run.figures().get("run"), 7)
        shutil.copy(run.places["journal"], os.path.join(room, "000007.journal"))
        run.leave()
        os.unlink(run.places["journal"])
        run.words = ["--run", "12"]
        run.serve()
        run.publish(*rows())
        wait(lambda: client.ask() == PATH)
        checks.same("the figure after the server has begun again", run.figures().get("run"), 12)
        run.end()
        names = [f"{number}.{kind}" for number in ("000007.1", "000012.2") for kind in ("replies", "requests")]
        checks.same("the files of replies", sorted(os.listdir(run.places["replies"])), names)
        for number, journal in (("000007.1", os.path.join(room, "000007.journal")), ("000012.2", run.places["journal"])):
            with open(journal, encoding="ascii") as file:
                judged = program.audit(file.read(), run.kept(number, "requests"), run.kept(number, "replies"))
            is_good = judged[0] == 0 and b" faults=0\n" in judged[1] and b"good=0" not in judged[1]
            checks.true(f"the journal of {number} judges them", is_good, judged)
    os.unlink(run.places["journal"])
    with Run(program.path, room, is_stateful=False) as again:
        again.publish(*rows())
        begun(again, "127.0.15.1").ask()
        again.end()
        checks.true("without a number the next files have none", "3.requests" in os.listdir(again.places["replies"]),
                    os.listdir(again.places["replies"]))


# ---- journals that stay


def pruned(program, checks, room):
    env, folder = around(program, room), os.path.join(room, "runs")

    def keep(*options):
        ran = subprocess.run([os.path.join(DEPLOY, "keep"), *options, folder, "echo"], env=env, capture_output=True, text=True, timeout=60)
        return ran.returncode, ran.stderr, sorted(name for name in os.listdir(folder) if name.endswith(".journal"))

    def journals(*some):
        return [f"{number:06}.journal" for number in some]

    def fill(days):
        for name in os.listdir(folder):
            os.unlink(os.path.join(folder, name))
        for number, age in enumerate(days, 1):
            path = os.path.join(folder, f"{number:06}.journal")
            with open(path, "w", encoding="ascii") as file:
                file.write(FIRST)
            os.utime(path, (time.time() - age * 86400,) * 2)

    ages = [9, 8, 7.1, 6.9, 1, 0]
    for options, left, count in (((), (1, 2, 3, 4, 5, 6), 0), (("--journals", "4"), (3, 4, 5, 6), 2), (("--journals", "6"), range(1, 7), 0),
                                 (("--journals", "2"), (5, 6), 4), (("--days", "7"), (4, 5, 6), 3), (("--days", "0"), (5, 6), 4)):
        fill(ages)
        said = f"keep: {count} old journals were removed\n" if count else ""
        checks.same(f"the journals that stay with {' '.join(options) or 'no option'}", keep(*options), (0, said, journals(*left)))
    fill([9, 8])
    checks.same("the newest two stay, however old", keep("--days", "1"), (0, "", journals(1, 2)))
    fill([9, 8, 7])
    for number in (4, 5):  # runs on a full disk: nobody was told anything there
        with open(os.path.join(folder, f"{number:06}.begin"), "w", encoding="ascii") as file:
            file.write(FIRST)
        with open(os.path.join(folder, f"{number:06}.journal"), "w", encoding="ascii") as file:
            file.write(FIRST[:20])
    status, _, left = keep("--journals", "3")
    checks.same("a run that published nothing takes no place of a journal", (status, left), (0, journals(2, 3, 5)))


def refused_options(program, checks, room):
    env, folder = around(program, room), os.path.join(room, "runs")
    for name in ("000001.journal", "000002.journal", "000003.journal"):
        with open(os.path.join(folder, name), "w", encoding="ascii") as file:
            file.write(FIRST)
    before = sorted(os.listdir(folder))
    for options, why in ((("--journals", "1"), "--journals takes a number from 2 on, and not '1'"),
                         (("--journals", "01"), "--journals takes a number from 2 on, and not '01'"),
                         (("--journals", ""), "--journals takes a number from 2 on, and not ''"),
                         (("--days", "-1"), "--days takes a number of days up to 9999, and not '-1'"),
                         (("--days", "1x"), "--days takes a number of days up to 9999, and not '1x'"),
                         (("--weeks", "1"), "there is no option --weeks")):
        ran = subprocess.run([os.path.join(DEPLOY, "keep"), *options, folder, "echo"], env=env, capture_output=True, text=True, timeout=60)
        checks.same(f"keep {' '.join(options)}", (ran.returncode, ran.stdout, ran.stderr, sorted(os.listdir(folder))),
                    (1, "", f"keep: {why}\n", before))


# ---- a journal that can't be written


def without_room(program, checks, room):
    """A beginning that can't be written: the next start finds all as it was."""
    env, folder = around(program, room), os.path.join(room, "runs")
    with open(os.path.join(folder, "000001.journal"), "w", encoding="ascii") as file:
        file.write(FIRST)
    with open(os.path.join(room, "full"), "w", encoding="ascii") as script:
        script.write("#!/bin/sh\necho put,1.1.1.1\nexit 3\n")
    os.chmod(script.name, 0o755)

    def keep(**more):
        ran = subprocess.run([os.path.join(DEPLOY, "keep"), folder, "echo"], env={**env, **more}, capture_output=True, text=True)
        return ran.returncode, ran.stderr, sorted(os.listdir(folder))

    said = f"keep: 000001.journal: its snapshot can't be written to {folder}: status 3\n"
    for _ in range(2):
        checks.same("without room", keep(ROUTED_PROGRAM=script.name), (1, said, ["000001.journal", "lock"]))
    checks.same("with room", keep(), (0, "", ["000001.journal", "000002.begin", "lock"]))


def room_that_is_wanted(_, checks, room):
    journal = os.path.join(room, "journal")
    with open(journal, "wb") as file:
        file.write(b"x" * 1000)
    found, real = [], os.statvfs
    try:
        for free in (2 * 1000 + renewal.MARGIN - 1, 2 * 1000 + renewal.MARGIN):
            renewal.os.statvfs = lambda _, free=free: os.statvfs_result((1, 1, 10 ** 9, 10 ** 9, free, 0, 0, 0, 0, 255))
            found.append(renewal.room_for(journal))
    finally:
        renewal.os.statvfs = real
    checks.same("room for the next run", found, [False, True])
    checks.same("a journal that is gone has none", renewal.room_for(os.path.join(room, "nothing")), False)


def small_files():
    resource.setrlimit(resource.RLIMIT_FSIZE, (SMALL, SMALL))


def filled(program, room, *more):
    """A run of listen whose journal fails at the second batch."""
    return Front(program, room, *more, tool=(sys.executable, "-c", LOOKING), preexec_fn=small_files)


MORE = "".join(f"put,1.1.1.1,10.9.0.{at},2.2.2.2,10.9.1.{at},10,0x1,{FREE}\n" for at in range(9))
SECOND = f"{MORE}end,2,9\n"


def renewed(program, checks, room):
    with filled(program, room, "--renew") as front:
        updating, asking = Connection(front.updates), Connection(front.ask)
        checks.same("a batch that the journal takes", updating.talk(FIRST), "version 1\n")
        checks.true("one that it doesn't take", updating.talk(SECOND).startswith("batch 2 refused: journal"))
        time.sleep(0.5)
        checks.true("without room the run goes on", asking.talk(ASKS["route"]).startswith("ask 1 v1 route "))
        with open(f"{front.journal}.room", "w", encoding="ascii"):
            pass
        status, said = front.ended()
        checks.same("with room it ends", status, 3)
        why = re.search(r"(?m)^listen: batch 2 refused: journal \d+: there is room again, and this run ends$", said)
        checks.true("and says why", why, said)
        checks.same("its sockets are gone", [name for name in ("ask", "updates") if os.path.exists(os.path.join(room, name))], [])


def not_renewed(program, checks, room):
    with filled(program, room) as front:
        updating = Connection(front.updates)
        updating.talk(FIRST)
        checks.true("a batch that the journal doesn't take", updating.talk(SECOND).startswith("batch 2 refused: journal"))
        with open(f"{front.journal}.room", "w", encoding="ascii"):
            pass
        time.sleep(0.5)
        eventually(checks, "without --renew the run goes on", lambda: Connection(front.ask).talk(ASKS["route"])[:15], "ask 1 v1 route ")
