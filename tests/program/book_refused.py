"""Runs of `routed serve --book` while the C library refuses calls, each in turn: memory at each allocation, reads, writes, opens, threads.

A run ends whole, says which file fails, refuses a row by `memory`, or ends stopped. Whatever is refused, what is kept is at most one row
ahead of the journal, each line that was read is of a row that is kept and published, and a client's lines are right as far as they go. A
row that is refused by `memory` changes nothing, and is answered once it is sent again. With ROWS=10000 in the environment, or more, drawn
rows are tried, too.
"""
import collections
import functools
import os
import re
import shutil
import signal
import time

from program.book_faults import narrow
from program.book_kills import Left, rules
from program.book_served import VERSIONS, beginnings
from program.compact_books import latin
from program.drawn_books import drawn_stream
from program.known_books import BASE, MASKS, held_row, offer, place
from program.known_served_books import DROPS, LINK
from program.refusal import COMPILER, Refuser, counted, each
from program.refused import CAUSES, REFUSALS
from program.serving import AT, PATIENCE
from program.serving_book import Answers, ServingBook
from reference.served_books import Run

ASKS = [f"ask,{name},1.1.1.1,2.2.2.2,7,{bandwidth},{MASKS}," for name, bandwidth in enumerate((1, 100, 995))] + [
    f"ask,9,10.0.0.0,10.0.0.1,3,100,{MASKS},"]
SHORT = BASE + place(1) + held_row(2, 0, 30) + offer(3) + "release,1\nrelease,1\n" + place(2, 3, 40) + f"{DROPS}end,2,2\nrelease,2\n"
LACKED = held_row(2, 0, 30, route="0a00630102020202")  # its link isn't in the base
FULL = [  # streams, and how many bytes each file takes: the file of kept rows fails first, and the journal
    (LACKED + LACKED.replace("held,2", "held,3") + place(4) + "release,2\nrelease,9\nend,1,0\n", 2 * len(LACKED) - 9),
    (SHORT, len(BASE) + 150)]
AGAIN = [  # rows that are sent again where memory is refused to one of them: one row, or the rows of a batch
    [*BASE.splitlines(keepends=True)], [f"{ASKS[0]}\n"], [place(1)], [place(1, 0, 5, hops="10.0.12.2/32l")], [held_row(2, 0, 30)],
    [offer(3)], ["show,1\n"],
    [f"left,{LINK}\n"], ["release,1\n"], ["release,1\n"], ["put,1\n"], [held_row(4, route="00")], [place(2, 3, 40)],
    ["node,1.1.1.1,0\n", *DROPS.splitlines(keepends=True), "end,2,3\n"], [LACKED.replace("held,2", "held,5")], ["end,9,0\n"],
    [place(6)], ["release,2\n"], ["show,2\n"], ["left,1.1.1.1,1.1.1.1\n"], [*BASE.replace("end,1,", "end,3,").splitlines(keepends=True)]]
STEPS = 53, 71, 97  # calls from one refused one to the next: more than a batch takes
TRIES = 20  # of the same rows
MEMORY = " refused: memory\n"
MANY = 10_000  # accepted rows of drawn streams, from which on drawn rows are tried
FAULT = (rb"routed: (keep|journal) /\S+: write: (No space left on device \(os error 28\)|Interrupted system call \(os error 4\)|"
         rb"file too large)\n")
BEGIN = rb"routed: begin /\S+: (open: Too many open files \(os error 24\)|read: Input/output error \(os error 5\))\n"
CLIENT = rb"routed: client 1: (out of memory|no thread|no entry|/\S+: a (read|write|flush) failed)\n"


class Refused(Left):
    """What a run leaves in its folder."""

    def __init__(self, ran, room):
        self.ran, texts = ran, []
        for name in ("keep", "journal", "replies"):
            path = os.path.join(room, name)
            texts.append("")
            if os.path.exists(path):
                with open(path, encoding="latin-1", newline="") as file:
                    texts[-1] = file.read()
        self.kept, self.journal, self.replies = texts
        self.lines = ran.out.decode("latin-1")
        self.settle()
        self.asked = [(0, row, line) for row, line in zip(ASKS, self.replies.splitlines(keepends=True)) if line.endswith("\n")]


class Calls:
    """Runs on some rows, behind a beginning or not, with a client whose requests are a file. Each file may take so many bytes only."""

    def __init__(self, program, room, name, rows, begin="", size=None):
        self.name, self.room, self.rows, self.begin = name, os.path.join(room, name), rows, begin
        self.rooms, self.how = ((), {}) if size is None else ((size, size - len(Run("", begin).journal)), narrow(size))
        self.asks, self.said = (ASKS, b"") if size is None else (ASKS[:1], FAULT)  # what is said of a run of which nothing is refused
        self.wanted = Run(rows, begin, *self.rooms)
        self.answers = functools.cache(lambda run: Answers(run.networks))
        os.mkdir(self.room)
        for file, text in (("rows", rows), ("begin", begin), ("asks", "".join(f"{row}\n" for row in self.asks))):
            with open(os.path.join(self.room, file), "wb") as written:
                written.write(latin(text))
        self.words = [program.path, "serve", "--book", "--explain", *(["--begin", os.path.join(self.room, "begin")] if begin else [])]

    def judge(self, refuser, number, flags):
        """Whether anything was refused, and the fault of the run, if it has one."""
        inner = os.path.join(self.room, f"{'-'.join(flags)}-{number}")
        os.mkdir(inner)
        words = [*self.words, "--client", f"{self.room}/asks={inner}/replies"]
        for name in ("keep", "journal"):
            words += [f"--{name}", os.path.join(inner, name)]
        ran = refuser.run(words, flags[0], number, *flags[1:], stdin=os.path.join(self.room, "rows"), **self.how)
        found, fault = Refused(ran, inner), None if self.is_killed(ran, flags) else ran.fault()
        shutil.rmtree(inner)
        if fault is None:
            is_as_ever = ran.refused == 0 or "short" in flags
            fault = self.fault(found, flags, is_as_ever)
        if fault:
            fault = f"{fault}: status {ran.status}, {ran.out[-300:]}, {ran.err[-300:]}, {found.kept[-100:]!r}, {found.journal[-200:]!r}"
        return ran.refused != 0, fault

    def is_killed(self, ran, flags):
        """Whether a full file ended a run by a signal, as it does where there was no memory to read the limit of files at the start."""
        return bool(self.said) and flags[0] == "malloc" and ran.status == -signal.SIGXFSZ

    @functools.cached_property
    def lacking(self):
        """The runs in which a row is refused by `memory`, by their lines."""
        found = collections.defaultdict(list)
        for at in range(1, self.rows.count("\n") + 1):
            for moment in ("read", "taken", "told"):
                run = Run(self.rows, self.begin, *self.rooms, lacking={at: moment})
                if MEMORY in run.lines:
                    found[run.lines].append(run)
        return found

    def fault(self, found, flags, is_as_ever):
        """What is wrong with a run, or None."""
        ran, seen = found.ran, (found.ran.status, found.lines, found.kept, found.journal)
        if ran.status < 0:
            is_cut = seen[2:] == everything(self.wanted)[2:] and self.wanted.lines.startswith(found.lines)
            return None if is_cut else "a signal ends a run elsewhere than at a full file"
        wanted = next((run for run in self.lacking.get(found.lines, ()) if flags == ("malloc",) and seen == everything(run)), self.wanted)
        if MEMORY in found.lines and wanted is self.wanted:
            return "a row is refused by memory, and the run isn't one of those without it"
        is_whole = seen == everything(wanted)
        is_answered = len(found.asked) == len(self.asks)
        if is_as_ever:
            is_as_ever = is_whole and is_answered and re.fullmatch(self.said, ran.err)
            return None if is_as_ever else "a run of which nothing is refused isn't as ever"
        if not self.are_right(found, wanted):
            return "a client's lines aren't right"
        is_stopped, is_mute = ran.status == 3, flags == ("write", "on") and not ran.err
        if not self.told(ran, flags) and not is_mute:
            return "what is said of it isn't right"
        if not is_stopped and not is_answered and not is_mute and b"client 1" not in ran.err:
            return "a client isn't answered"
        if is_whole:
            is_told = wanted is self.wanted or not ran.err or re.fullmatch(self.said, ran.err)
            return None if is_told else "more is said of a refused row"
        cut = self.cut(found)
        if flags[0] == "write" and cut and (found.lines == cut.lines or is_stopped and cut.lines.startswith(found.lines)):
            is_named = ran.status == 2 and re.search(FAULT, ran.err)
            return None if is_stopped or is_named else "a file that fails isn't named, or the status isn't 2"
        if not is_stopped:
            return "a run that isn't whole isn't stopped"
        return next((words for words, holds, _ in rules(wanted, self.begin, found) if not holds), None)

    def told(self, ran, flags):
        """Whether a run says no more than which calls failed, and at the end that it is stopped, if it is."""
        cause = CAUSES["break" if "break" in flags else flags[0]]
        some = b"(" + b"|".join((cause, CLIENT, BEGIN, *[FAULT] * (flags[0] == "write" or bool(self.said)))) + b")*"
        return re.fullmatch(some + b"routed: stopped\n" * (ran.status == 3), ran.err) is not None

    def cut(self, found):
        """The run whose files take what is in them, if there is one."""
        first = len(self.wanted.steps[0].published)
        if len(found.journal) < first:
            return None
        cut = Run(self.rows, self.begin, len(found.kept), len(found.journal) - first)
        return cut if (cut.kept, cut.journal) == (found.kept, found.journal) else None

    def are_right(self, found, wanted):
        """Whether the client's lines are the reference's at versions that don't fall, from the beginning's to the last one."""
        least = wanted.first
        for _, row, line in found.asked:
            named = AT.match(line)
            version = int(named[1]) if named else -1
            if not least <= version <= len(found.batches) or line != f"{self.answers(wanted).at(version, row)}\n":
                return False
            least = version
        return not found.replies or found.replies.endswith("\n") or found.ran.err != b""


def everything(run):
    """The status of a run, its lines, what it keeps, and its journal."""
    return run.status, run.lines, run.kept, run.journal


class Again:
    """A run that is sent rows again at which memory was refused. `rows` are those that were sent, and `lacking` has the refused ones."""

    def __init__(self, run):
        self.run, self.rows, self.lacking, self.lines = run, [], {}, ""

    def send(self, rows):
        """Sends rows, and hears their lines. Whether memory was there; None if the run has ended."""
        first, lines = len(self.rows) + 1, [""]
        self.rows += rows
        self.run.pour("".join(rows))
        while lines[-1].startswith(("over", "lost", "row" if len(rows) > 1 else "over")) or len(lines) == 1:
            lines.append(self.run.hear(0))
        self.lines += "".join(lines)
        for line in lines:
            if line.endswith(MEMORY):
                named = re.match(r"row (\d+) ", line)
                self.lacking[int(named[1]) if named else first + len(rows) - 1] = "read" if named else "taken"
        return not self.lines.endswith(MEMORY) and not any(line.endswith(MEMORY) for line in lines) if lines[-1] else None

    def feed(self, units):
        """Sends rows, those again at which memory was refused. Whether all were answered; None if the run has ended."""
        for rows in units:
            has_memory = next((found for found in (self.send(rows) for _ in range(TRIES)) if found is not False), False)
            if not has_memory:
                return has_memory
        return True

    def judge(self, said, status, texts):
        """What is wrong with the whole run, or None. Each row that was sent again was answered as if memory had always been there."""
        wanted, once = Run("".join(self.rows), lacking=self.lacking), Run("".join(map("".join, AGAIN)))
        if (status, self.lines + said, *texts) != everything(wanted):
            return f"not what the rows without memory make: {status}, {self.lines + said!r}, {texts}, {everything(wanted)}"
        return None if texts == [once.kept, once.journal] else f"not what the rows make: {texts}"

    def kinds(self):
        """Which kinds of rows were refused by `memory`, and before their fields were read or behind that."""
        return {(self.rows[at - 1].split(",")[0], moment) for at, moment in self.lacking.items()}


def sent_again(program, refuser, room, number, seen, **every):
    """Whether anything was refused to a run that is sent rows again, and its fault, or None."""
    inner = os.path.join(room, "-".join(map(str, (number, *every.values()))))
    os.mkdir(inner)
    env, counts = refuser.refusing("malloc", number, **every)
    with ServingBook(program, inner, 1, "--explain", env=env) as run:
        run.close_rows(1)  # so the run ends with its rows
        again = Again(run)
        is_fed = again.feed(AGAIN)
        run.close_rows(0)
        status, said = run.child.wait(PATIENCE), run.leave(0)  # a run that ends at its start opens no pipe of a client
        err, texts = run.child.stderr.read().decode(), run.texts()
    shutil.rmtree(inner)
    seen |= again.kinds()
    refused = counted(counts)[1]
    if refused is None:
        return True, "its calls are not counted"
    if is_fed is None:
        return True, None if status == 3 and err.endswith("routed: stopped\n") else f"it ended: {status}, {err}"
    return refused > 0, again.judge(said, status, texts) if is_fed else f"rows that are refused {TRIES} times: {again.lines[-200:]!r}"


def calls_of_base(program, refuser, room):
    """How often a run asks for memory that gets the first batch alone. Its rows are the longest, so later rows are read without."""
    inner = os.path.join(room, "start")
    os.mkdir(inner)
    env, counts = refuser.refusing("malloc", 0)
    with ServingBook(program, inner, 1, env=env) as run:
        run.close_rows(1)
        Again(run).feed(AGAIN[:1])
        run.end()
    return counted(counts)[0]


def rows_again(program, checks):
    """Each kind of row while memory is refused once, and each so many calls: whatever is refused is sent again."""
    if COMPILER is None:
        print("rows of a served book that are sent again: skipped, there is no C compiler")
        return
    start, refuser, seen = time.monotonic(), Refuser(), set()
    first = calls_of_base(program, refuser, refuser.room.name)
    tried, faults = each(lambda number: sent_again(program, refuser, refuser.room.name, number, seen))
    checks.same("a served book whose rows are sent again where memory is refused once", faults, [])
    for every in STEPS:
        found = [sent_again(program, refuser, refuser.room.name, first + at, seen, every=every)[1] for at in range(0, every, 7)]
        checks.same(f"a served book whose rows are sent again where memory is refused each {every} calls", [it for it in found if it], [])
    wanted = {(kind, "read") for kind in ("ask", "put", "show", "left", "held")} | {
        (kind, "taken") for kind in ("end", "place", "held", "offer", "release")}
    checks.same("kinds of rows at which memory is never refused", wanted - seen, set())
    print(f"rows of served books that are sent again: {tried} runs, {time.monotonic() - start:.0f} s")


def refused_calls(program, checks):
    """While the C library refuses calls, each in turn."""
    if COMPILER is None:
        print("refused calls of a served book: skipped, there is no C compiler")
        return
    start, refuser, tried = time.monotonic(), Refuser(), {flags: 0 for flags in REFUSALS}
    streams = [("short", SHORT, ""), ("begun", SHORT.replace("end,2,", "end,3,")[len(BASE):], BASE + place(7) + "end,2,0\n")]
    if VERSIONS >= MANY:
        streams += [("drawn", drawn_stream(2, 40), ""), ("drawn-begun", *beginnings(1)[::-1])]
    runs = [(Calls(program, refuser.room.name, *stream), REFUSALS) for stream in streams]
    runs += [(Calls(program, refuser.room.name, f"full-{size}", rows, "", size), REFUSALS[:2]) for rows, size in FULL]
    for run, refusals in runs:
        for flags in refusals:
            count, faults = each(lambda number: run.judge(refuser, number, flags))
            checks.same(f"a served book, {run.name}, while calls are refused {flags}", faults, [])
            tried[flags] += count
    checks.same("calls of a served book that are never refused", [flags for flags, count in tried.items() if not count], [])
    counts = ", ".join(" ".join([*flags, str(count)]) for flags, count in tried.items())
    print(f"refused calls of served books: {counts}, {time.monotonic() - start:.0f} s")


def book_refused(program, checks):
    checks.parts((refused_calls, rows_again), program, checks)
