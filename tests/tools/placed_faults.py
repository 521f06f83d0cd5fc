"""The place of `routed-tools listen --placements` where a file is full, the server is killed, or the code of a connection raises."""
import os
import re
import resource
import shlex
import signal
import sys

from program.refusal import COMPILER, Refuser
from reference import compacts
from reference.served_books import Run
from tools.booking import BASE, ENDED_BOOK, LOW, Booked, asked, place, until
from tools.exceptions import heard
from tools.fronts import Connection, admitted
from tools.plants import ENDED, left, plant, planted
from tools.reading import eventually, figures_of
from tools.runs import LOOKING

FIRST, EACH, PLACINGS = 600, 97, 60  # the server's request for memory that is refused first, and from one to the next; placings
LOST = "held,{},9.9.9.9,8.8.8.8,7,5,0x00000000,0x00000000,0x00000000,,0909090908080808\n"  # over a link that isn't there: no put row


def limited(size):
    """A run whose files may have so many bytes."""
    return lambda: resource.setrlimit(resource.RLIMIT_FSIZE, (size, size))


def book_of(rows):
    return compacts.run(rows)[1]


def full_keep(program, checks, room):
    """The file of kept rows is full: the row is refused, nothing is published after that, and books have what was accepted."""
    with Booked(program, room, preexec_fn=limited(len(BASE) + 400)) as front:
        one, updating = front.connect(), Connection(front.updates)
        updating.talk(f"{BASE}end,1,4\n")
        one.lines.next()
        lines = []
        while not lines or lines[-1].startswith("held ") and " refused: " not in lines[-1]:
            lines.append(one.talk(LOST.format(len(lines))))
        count = len(lines) - 1
        accepted = f"{BASE}end,1,4\n{''.join(LOST.format(at) for at in range(count))}"
        size = len(BASE) + 400 - len(accepted)
        checks.same("a row that isn't kept", lines[-1], f"held {count} refused: keep {size}\n")
        for row, line in (("release,0\n", "release 0 refused: stopped\n"), (place(1), "place 1 refused: stopped\n"),
                          ("show,0\n", f"show 0 v{count + 1} from=9.9.9.9 to=8.8.8.8 hold=7 bandwidth=5 links=1 9.9.9.9,9.9.9.9\n")):
            checks.same(f"behind it {row.strip()}", one.talk(row), line)
        checks.same("a batch behind it", updating.talk("end,2,0\n"), "batch 2 refused: stopped\n")
        wanted = book_of(accepted)
        checks.same("what is kept", front.kept_rows(), accepted + LOST.format(count)[:size])
        checks.same("the book", asked(one, "book"), f"version {count + 1}\n{wanted}{ENDED_BOOK}")
        checks.same("the place of --show", asked(front.connect("show"), "snapshot", "snapshot end\n"),
                    f"version {count + 1}\n{wanted}snapshot end\n")
        found = figures_of(room)
        checks.same("figures", [found.get(("routed_refused_placings_total", word)) for word in ("keep", "stopped")], [1, 2])
        said = front.errors.next()
        if said.startswith("routed: figures "):  # that file is larger
            said = front.errors.next()
        checks.same("the log", said, f"listen: placements 1: held {count} refused: keep {size}\n")


def out_of_memory(program, checks, room):
    """Memory is refused to the server now and then: each row that is refused by `memory` is answered once it is sent again, and requests of
    the front's own are sent again by themselves."""
    if COMPILER is None:
        print("a server that lacks memory: skipped, there is no C compiler")
        return
    wrapper, lines = os.path.join(room, "wrapper"), []
    refuser = Refuser()
    env, _ = refuser.refusing("malloc", FIRST, every=EACH)
    given = [f"{key}={shlex.quote(value)}" for key, value in env.items() if key.startswith(("LD_PRELOAD", "REFUSE_"))]
    with open(wrapper, "w", encoding="utf-8") as file:
        file.write(f"#!/bin/sh\n[ $1 = serve ] || exec {shlex.quote(program.path)} \"$@\"\n"
                   f"{' '.join(given)} exec {shlex.quote(program.path)} \"$@\"\n")
    os.chmod(wrapper, 0o755)
    with Booked(type(program)(wrapper), room, "--clients", "1") as front:
        one, updating = front.connect(), Connection(front.updates)
        checks.same("a base", updating.talk(f"{BASE}end,1,4\n"), "base 1 v1\n")
        one.lines.next()
        for number in range(PLACINGS):
            lines.append(one.talk(place(number % 7, number % 5)))
            while lines[-1].endswith(" refused: memory\n"):
                lines.append(one.talk(place(number % 7, number % 5)))
        book, found = asked(one, "book"), figures_of(room)
        front.child.terminate()
        _, said = front.ended()
        kept = front.kept_rows()
    wanted = Run(f"{BASE}end,1,4\n" + "".join(place(number % 7, number % 5) for number in range(PLACINGS)))
    refused = [line for line in lines if line.endswith(" refused: memory\n")]
    checks.same("rows that are sent again", "".join(line for line in lines if line not in refused),
                wanted.lines.removeprefix("base 1 v1\n"))
    checks.same("what is kept of them", kept, wanted.kept)
    checks.same("the book of them", book, f"version {PLACINGS + 1}\n{book_of(wanted.kept)}{ENDED_BOOK}")
    own = said.count("refused: memory: a request of our own, which is sent again\n")
    checks.true("memory is refused to rows of both", refused and own, (len(refused), own, said[-500:]))
    checks.same("figures of them", found.get(("routed_refused_placings_total", "memory")), len(refused))


def full_journal(program, checks, room):
    """The journal is full: the refused row is kept as a whole, and no book has it."""
    accepted = f"{BASE}end,1,4\n{''.join(place(at, 1) for at in range(3))}"
    size, wanted = len(Run(accepted).journal), book_of(accepted)
    for name, row, subject in (("a placement", place(3, 1), "place 3"), ("a batch", f"{LOW}end,2,1\n", "batch 2")):
        inner = os.path.join(room, name.split()[1])
        os.mkdir(inner)
        with Booked(program, inner, preexec_fn=limited(size + 20)) as front:
            one, updating = front.connect(), Connection(front.updates)
            updating.talk(f"{BASE}end,1,4\n")
            one.lines.next()
            for at in range(3):
                one.talk(place(at, 1))
            line = (updating if name == "a batch" else one).talk(row)
            checks.same(f"the journal refuses {name}", line, f"{subject} refused: journal 20\n")
            checks.same(f"it is kept, {name}", front.kept_rows(), accepted + row)
            checks.same(f"the book, {name}", asked(one, "book"), f"version 4\n{wanted}{ENDED_BOOK}")
            checks.same(f"the base, {name}", asked(updating, "snapshot", "snapshot end\n"),
                        f"base 1 v4\n{wanted.partition('held,')[0]}snapshot end\n")
            checks.same(f"what comes behind {name}", one.talk("release,0\n"), "release 0 refused: stopped\n")
            checks.same(f"the book then, {name}", asked(one, "book"), f"version 4\n{wanted}{ENDED_BOOK}")


def renewed(program, checks, room):
    """With --renew the run ends with status 3 once both files have room."""
    tool = sys.executable, "-c", LOOKING
    with Booked(program, room, "--renew", tool=tool, preexec_fn=limited(1000)) as front:
        one, updating = front.connect(), Connection(front.updates)
        updating.talk(f"{BASE}end,1,4\n")
        one.lines.next()
        at = 0
        while " refused: journal " not in (line := one.talk(place(at, 1))):
            at += 1
        open(f"{front.journal}.room", "w", encoding="ascii").close()
        for _ in range(5):
            checks.same("it goes on", one.talk("show,0\n").split()[:2], ["show", "0"])
        open(f"{front.keep}.room", "w", encoding="ascii").close()
        checks.same("its connection ends", one.rest(), "")
        status, said = front.ended()
        checks.true("and the run", status == 3 and f"{line.strip()}: there is room again" in said, (status, said))


def kills(program, checks, room):
    """The server is killed: connections end, and the next run has each row whose line was read."""
    begin = f"{BASE}end,1,4\n"
    for at in range(3):
        os.mkdir(inner := os.path.join(room, str(at)))
        with Booked(program, inner, begin=begin) as front:
            several = [front.connect() for _ in range(3)]
            for number, one in enumerate(several):
                one.say("".join(place(100 * at + 10 * number + each, 1) for each in range(10)))
            said = ["".join(one.lines.next() for _ in range(3 * at + 1)) for one in several]
            os.kill(front.server(), signal.SIGKILL)
            said = [more + one.rest() for more, one in zip(said, several)]
            checks.same(f"status {at}", front.ended()[0], 128 + signal.SIGKILL)
            placed = sorted(int(line.split()[1]) for more in said for line in more.splitlines(True) if line.endswith("\n"))
            begin += front.kept_rows()
        kept = {int(row.split(",")[1]) for row in begin.splitlines() if row.startswith("place,")}
        checks.true(f"what was told is kept {at}", placed and kept.issuperset(placed), (placed, kept))
        begin = book_of(begin[:begin.rfind("\n") + 1])
    with Booked(program, os.path.join(room, "2"), begin=begin, journal=os.path.join(room, "last")) as front:
        del front


def raising(program, checks, room):
    """An exception in the code of one connection that places ends it alone; one in a text refuses that."""
    with Booked(program, room, tool=planted(room, "listen")) as front:
        stays, updating = front.connect(), Connection(front.updates)
        updating.talk(f"{BASE}end,1,4\n")
        count, base = 0, 1
        for name, rows in (("Channel.take", place(5)), ("Channel.read_lines", place(5)), ("Channel.read_lines!", place(5)),
                           ("Placer.pass_on", place(5)), ("Placer.pass_on!", place(5)), ("Account.rows", place(5)),
                           ("Placer.begin_text", "book\n"), ("Placer.go_on", "book\n"), ("Placer.go_on!", "book\n"),
                           ("Books.book", "book\n"), ("Placer.tell", ""),
                           ("Channel.finish", None)):
            victim, line = admitted(os.path.join(room, "placements"), "show,1\n")
            if not rows:
                stays.socket.close()
                stays = None
            plant(room, name)
            if rows is None:
                victim.socket.shutdown(1)
            elif rows:
                victim.say(rows)
            else:
                base += 1
                checks.true(f"{name}: a batch", updating.talk(f"end,{base},0\n").startswith(f"base {base} v"))
            said = heard(victim)
            checks.true(f"{name}: it ends", " refused" not in said, said)
            said = front.errors.next()
            count += 1
            checks.true(f"{name}: a line", re.fullmatch(rf"listen: placements \d+: {ENDED}\n", said), said)
            checks.same(f"{name}: what was planted", left(room), "")
            checks.same(f"{name}: a figure", figures_of(room)["routed_exceptions_total", None], count)
            stays = stays or front.connect()
            stays.say("release,5\nrun\n")
            checks.true(f"{name}: another one goes on", until(stays, "run "))
            checks.true(f"{name}: the book", asked(stays, "book").endswith(ENDED_BOOK))
            updating.say("run\n")
            checks.true(f"{name}: the updates", until(updating, "run "))
        for name in ("Books.look", "Books.look!", "Books.make"):
            stays.talk("release,5\n")
            stays.talk(place(5))
            plant(room, name)
            said = asked(stays, "book")
            is_made = name.endswith("!") and said.endswith(ENDED_BOOK)
            checks.true(f"{name}: the book", said == "book refused: an exception\n" or is_made, said)
            said = front.errors.next()
            checks.true(f"{name}: a line", re.fullmatch(rf"listen: texts: {ENDED}\n", said), said)
            checks.true(f"{name}: the next book", asked(stays, "book").endswith(ENDED_BOOK))
        eventually(checks, "connections", lambda: figures_of(room)["routed_connections", "placements"], 1)


PARTS = (full_keep, out_of_memory, full_journal, renewed, kills, raising)
