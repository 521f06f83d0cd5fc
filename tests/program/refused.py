"""The built program while the C library refuses its calls, each in turn (tests/program/refuse.c): it ends whole, with a named refusal, or
stopped.

All commands are run so. A whole run has a batch that is refused by name and the journal that this line says. A stopped one has the
cause that `--explain` names: what `solve` wrote is a prefix of the right text, and the journal of `live` a prefix of the updates. A
read or a write that moves one byte changes nothing; one that a signal breaks off is a device that failed.
"""
import os
import re
import time
from collections import Counter

from checks import TOP
from program.refusal import COMPILER, Refuser, each
from reference import excepts, runs
from reference.formats import Network
from reference.runs import snapshot_of
from reference.versions import Versions

ABILENE, UPDATES, REQUESTS = (os.path.join(TOP, "examples", name) for name in ("abilene.rows", "nsfnet.journal", "nsfnet.requests"))

# (the kind of call, how it is refused)
REFUSALS = [("malloc",), ("malloc", "on"), ("read",), ("read", "on"), ("read", "short"), ("read", "short", "on"), ("read", "break"),
            ("write",), ("write", "on"), ("write", "short"), ("write", "short", "on"), ("write", "break"), ("open",), ("open", "on"),
            ("thread",), ("thread", "on")]


def text_of(path):
    with open(path, encoding="ascii") as file:
        return file.read()


def lines_of(versions):
    """What is answered where all batches come before all requests."""
    last = len(versions.replies) - 1
    return "".join(f"{line}\n" for line in [*(f"version {at}" for at in range(1, last + 1)), *versions.replies[last]]).encode()


# What --explain says of a refused call.
CAUSES = {
    "malloc": rb"(routed: (out of memory|client 1: no thread)\n)?",  # nothing while the command line is read; a thread takes memory too
    "read": rb"routed: (standard input|(journal|updates|requests|replies|clients-from) /\S+): read: Input/output error \(os error 5\)\n",
    "write": rb"routed: (standard output|keep /\S+): (write|flush): No space left on device \(os error 28\)\n",
    "open": rb"routed: (journal|updates|requests|replies|keep|clients-from|a client's requests|a client's replies) /\S+: open: Too many "
            rb"open files \(os error 24\)\n",
    "thread": rb"routed: a worker couldn't be started\n",
    "break": rb"routed: [a-z -]*(/\S+)?: (read|write|flush): Interrupted system call \(os error 4\)\n",
}


def is_stopped(ran, flags, before=b""):
    """Status 3 and the lines, maybe behind others; where each later write is refused as well, nobody can be told."""
    told = re.fullmatch(before + CAUSES["break" if "break" in flags else flags[0]] + b"routed: stopped\n", ran.err)
    return ran.status == 3 and bool(told or flags == ("write", "on") and not ran.err)


class Solve:
    """`solve` on Abilene."""

    def __init__(self, program):
        self.words, self.rows = [program.path, "solve", "--explain"], ABILENE
        rows = text_of(ABILENE).splitlines(keepends=True)
        asks = [row for row in rows if row.startswith("ask,")]
        self.lines = lines_of(Versions("".join(row for row in rows if row not in asks), asks))

    def run(self, refuser, number, flags):
        ran = refuser.run(self.words, flags[0], number, *flags[1:], stdin=self.rows)
        whole = (ran.status, ran.out, ran.err) == (0, self.lines, b"")
        return ran, whole, whole or is_stopped(ran, flags) and self.lines.startswith(ran.out)


class Pairs(Solve):
    """`solve --pairs` on Abilene's network, with requests for pairs of both kinds."""

    def __init__(self, program, room):
        self.words, self.rows = [program.path, "solve", "--pairs", "--explain"], os.path.join(room, "pairs")
        rows = text_of(ABILENE).splitlines()
        asks = [row.split(",") for row in rows if row.startswith("ask,")]
        pairs = [",".join(["pair", *fields[1:9], kind]) for fields in asks[:2] for kind in ("circuits", "routers")]
        text = "".join(f"{row}\n" for row in [row for row in rows if not row.startswith("ask,")] + pairs)
        with open(self.rows, "w", encoding="ascii") as file:
            file.write(text)
        self.lines = "".join(f"{line}\n" for line in runs.solve(text, ("pair",))[1]).encode()


class Batch:
    """`batch` on NSFNET."""

    def __init__(self, program):
        self.words = [program.path, "batch", "--journal", UPDATES, "--requests", REQUESTS, "--workers", "3", "--explain"]
        self.lines = lines_of(Versions(text_of(UPDATES), text_of(REQUESTS).splitlines()))

    def run(self, refuser, number, flags):
        ran = refuser.run(self.words, flags[0], number, *flags[1:])
        whole = (ran.status, ran.out, ran.err) == (0, self.lines, b"")
        return ran, whole, whole or is_stopped(ran, flags)


class Live:
    """`live` on NSFNET."""

    def __init__(self, program):
        self.words = [program.path, "live", "--updates", UPDATES, "--requests", REQUESTS, "--workers", "3", "--explain", "--journal"]
        self.versions = Versions(text_of(UPDATES), text_of(REQUESTS).splitlines())

    def run(self, refuser, number, flags):
        journal = os.path.join(refuser.room.name, f"journal {flags} {number}".replace(" ", "-"))
        ran = refuser.run([*self.words, journal], flags[0], number, *flags[1:])
        kept = text_of(journal) if os.path.exists(journal) else ""
        if os.path.exists(journal):
            os.remove(journal)
        whole = ran.status == 0 and self.ends(ran, kept, len(self.versions.texts) - 1, "")
        named = ran.status == 2 and self.is_named(ran, kept)
        return ran, whole, whole or named or is_stopped(ran, flags) and self.versions.recorded(kept) is not None

    def ends(self, ran, kept, applied, last):
        """Whether all requests are answered rightly, this many batches are applied and recorded, and this is the last line."""
        lines, asked, text = ran.out.decode().splitlines(keepends=True), len(self.versions.asks), self.versions.texts[applied]
        replies = [line.rstrip("\n") for line in lines[:asked]]
        return (len(replies) == asked and self.versions.are_right(replies) and "".join(lines[asked:]) == f"applied {applied}\n{last}"
                and kept == text and ran.err == b"")

    def is_named(self, ran, kept):
        """A batch that is refused by name, which has left in the journal the bytes that the line says."""
        last = re.search(rb"(?m)^batch (\d+) refused: (memory|journal (\d+))\n\Z", ran.out)
        if not last:
            return False
        applied, begun = int(last[1]) - 1, int(last[3] or 0)
        until = len(self.versions.texts[applied]) + begun
        is_front = kept == self.versions.texts[-1][:until]
        return is_front and self.ends(ran, kept[:until - begun], applied, last[0].decode())


class Audit:
    """`audit` on NSFNET, of replies at the versions 0 to 7, one of which is altered, one said twice and one left out. With `questions` the
    requests have two `except` rows, too, and the answer to one of them is right."""

    def __init__(self, program, room, questions=False):
        updates, requests = text_of(UPDATES), text_of(REQUESTS)
        versions, networks = Versions(updates, requests.splitlines()), runs.publish(runs.whole_batches(updates))[0]
        lines = [versions.replies[at % len(versions.replies)][at] for at in range(len(versions.asks))]
        lines = [*lines[:3], lines[3].replace("again=no", "again=yes"), lines[0], *lines[4:-1], "version 4"]
        if questions:
            for number, parts in ((900, "10.1.2.0/24i 10.1.3.0/24i"), (901, "203.0.113.5/32r")):
                row = f"except,{number},{versions.asks[0].split(',', 2)[2]},{parts}"
                requests += f"{row}\n"
                lines.append(excepts.answer(networks[-1], len(networks) - 1, excepts.question(row.split(","))))
            lines[-1] = lines[-1].replace("except", "ask")
        paths = [os.path.join(room, f"{kind} {questions}".replace(" ", "-")) for kind in ("requests", "replies")]
        replies = "".join(f"{line}\n" for line in lines)
        for path, text in zip(paths, (requests, replies)):
            with open(path, "w", encoding="ascii") as file:
                file.write(text)
        self.words = [program.path, "audit", *["--except"] * questions, "--journal", UPDATES, "--requests", paths[0], "--replies", paths[1],
                      "--explain"]
        self.status, lines = runs.audit(updates, requests, replies, ("except",) * questions)
        self.lines = "".join(f"{line}\n" for line in lines).encode()

    def run(self, refuser, number, flags):
        ran = refuser.run(self.words, flags[0], number, *flags[1:])
        whole = (ran.status, ran.out, ran.err) == (self.status, self.lines, b"")
        return ran, whole, whole or is_stopped(ran, flags)


class Questions(Audit):
    """The same with `except` rows."""

    def __init__(self, program, room):
        super().__init__(program, room, True)


class Snapshot:
    """`snapshot` of NSFNET's journal."""

    def __init__(self, program):
        self.words = [program.path, "snapshot", "--journal", UPDATES, "--explain"]
        network = Network()
        for row in text_of(UPDATES).splitlines():
            if not row.startswith("end,"):
                network.change(row.split(","))
        self.lines = snapshot_of(network).encode()

    def run(self, refuser, number, flags):
        ran = refuser.run(self.words, flags[0], number, *flags[1:])
        whole = (ran.status, ran.out, ran.err) == (0, self.lines, b"")
        return ran, whole, whole or is_stopped(ran, flags)


class Serve:
    """`serve` with NSFNET's updates on standard input, and a client of `--clients-from` whose requests are a file."""

    def __init__(self, program):
        self.program, self.versions = program.path, Versions(text_of(UPDATES), text_of(REQUESTS).splitlines())

    def run(self, refuser, number, flags):
        journal, replies, clients = (os.path.join(refuser.room.name, f"{kind} of serve {flags} {number}".replace(" ", "-"))
                                     for kind in ("journal", "replies", "clients"))
        with open(clients, "w", encoding="ascii") as file:
            file.write(f"{REQUESTS}={replies}\n")
        words = [self.program, "serve", "--explain", "--journal", journal, "--clients-from", clients]
        ran = refuser.run(words, flags[0], number, *flags[1:], stdin=UPDATES)
        kept, lines = (text_of(path) if os.path.exists(path) else "" for path in (journal, replies))
        for path in (journal, replies, clients):
            if os.path.exists(path):
                os.remove(path)
        most = len(self.versions.texts) - 1
        told = "".join(f"version {at}\n" for at in range(1, most + 1)).encode()
        whole = ran.status == 0 and (ran.out, ran.err,
                                     kept) == (told, b"", self.versions.texts[most]) and self.is_answered(lines, len(self.versions.asks))
        return ran, whole, whole or self.is_right(ran, flags, kept, lines)

    def is_answered(self, lines, count):
        """Whether so many first requests at least are answered rightly, and nothing is written behind their lines."""
        answered = lines.splitlines()
        return len(answered) >= count and (not lines or lines.endswith("\n")) and self.versions.are_right(answered)

    def is_right(self, ran, flags, kept, lines):
        """What is told of is in the journal, the client's lines are right as far as they go, and each refusal has its name."""
        if flags[0] == "thread":  # then nothing is read
            return (ran.status, ran.out, ran.err, kept, lines) == (3, b"", b"routed: client 1: no thread\nrouted: stopped\n", "", "")
        recorded = self.versions.recorded(kept)
        versions = re.findall(rb"(?m)^version (\d+)$", ran.out)
        *whole, rest = lines.split("\n")
        if recorded is None or versions and int(versions[-1]) > recorded or not self.versions.are_right(whole):
            return False
        if rest and not flags[0] == "write":
            return False
        if ran.status == 3:
            return is_stopped(ran, flags, CLIENT_ENDS)
        named = all(re.fullmatch(NAMED, line) for line in ran.out.splitlines())
        return ran.status in (0, 2) and named and re.fullmatch(CLIENT_ENDS, ran.err) is not None


# A client that ended before its rows, as --explain says it, and the lines that updates are answered by.
CLIENT_ENDS = rb"(routed: client 1: (out of memory|no entry|/\S+: a (read|write|flush) failed)\n)?"
NAMED = (rb"version \d+|batch \d+ refused: (memory|stopped|journal \d+|expected \d+|counted \d+|absent \d+)"
         rb"|row \d+ refused: \S+( \d+)?|unended \d+")


def writes(program, checks, refuser):
    """A line of `solve` and of `serve` is one write, and so is a batch in the journal. Behind a write that is refused there is none."""
    solve, serve = Solve(program), Serve(program)
    lines = solve.lines.splitlines(keepends=True)
    ran = refuser.run(solve.words, "write", 0, stdin=ABILENE)
    checks.same("a write for each line of solve", (ran.out, ran.calls), (solve.lines, len(lines)))
    for flags in ((), ("break",)):
        found = [refuser.run(solve.words, "write", number, *flags, stdin=ABILENE) for number in range(1, len(lines) + 1)]
        checks.same(f"lines before a refused write {flags}", [(ran.refused, ran.out) for ran in found],
                    [(1, b"".join(lines[:at])) for at in range(len(lines))])
    ran, is_whole, _ = serve.run(refuser, 0, ("write",))
    batches = len(serve.versions.texts) - 1
    checks.same("a write for each line and batch of serve", (is_whole, ran.calls), (True, 2 * batches + len(serve.versions.asks)))


def refused(program, checks):
    if COMPILER is None:
        print("refused calls: skipped, there is no C compiler")
        return
    refuser, tried, start = Refuser(), Counter(), time.monotonic()
    room = refuser.room.name
    for command in [Solve(program), Pairs(program, room), Batch(program), Live(program), Audit(program, room), Questions(program, room),
                    Snapshot(program), Serve(program)]:
        for flags in REFUSALS:
            def judge(number):
                ran, is_whole, is_right = command.run(refuser, number, flags)
                fault = ran.fault()
                # where nothing is refused, or a call moves one byte, the run ends as usual; what a full device refused isn't written again
                is_as_ever, is_full = ran.refused == 0 or "short" in flags, flags in (("write",), ("write", "on"))
                if fault is None and not (is_whole if is_as_ever else is_right and not (is_whole and is_full)):
                    fault = f"status {ran.status}, {ran.out[-200:]}, {ran.err[-200:]}"
                return ran.refused != 0, fault

            count, faults = each(judge)
            checks.same(f"{type(command).__name__.lower()} while calls are refused {flags}", faults, [])
            tried[" ".join(flags)] += count
    for flags in REFUSALS:
        checks.true(f"calls are refused {flags}", tried[" ".join(flags)])
    writes(program, checks, refuser)
    print(f"refused calls: {', '.join(f'{kind} {count}' for kind, count in tried.items())}, in {time.monotonic() - start:.0f} s")
    for number in range(1, 4):
        ran = refuser.run([program.path, "solve", "--none"], "write", number, "on")
        checks.true(f"a refused command line, with write {number} refused", ran.fault() is None and ran.status in (1, 3), ran)
