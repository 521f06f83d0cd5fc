#!/usr/bin/env python3
"""Compares the built program with tests/reference/runs.py on streams whose bytes were changed.

    tests/program/changed.py [--program FILE] [--changed N] [--seed S] [--jobs J]
    tests/program/changed.py --wrong [--changed N] [--seed S]

N streams are drawn and changed: scripts, journals and requests (with and without --accept-torn), updates of
a live run by one worker, what an audit reads, and objects as hops. Beside these each worked row, journal and object is cut at each
byte, each value of a worked row is met at its edges, each field in quotes, each byte as each other one, and
limits are met and passed. Lines, status and journal have to be those of the reference. Each
difference is printed with its seed and number, and its streams are kept in a folder, together with the
shortest ones found that still differ.
The last line counts what was tried. The status is 1 where anything differs.

With --wrong the reference with one rule turned takes the program's place: each such program has to be told
apart within N streams. With --audit replies are judged as well.
"""
import argparse
import collections
import dataclasses
import multiprocessing
import os
import random
import re
import shutil
import subprocess
import sys
import tempfile

sys.dont_write_bytecode = True
HERE = os.path.dirname(os.path.abspath(__file__))
sys.path.insert(1, os.path.dirname(HERE))
from checks import short
from reference import changes, runs, wrong
from reference.shortened import shortened
from routed.program import BUILT

MOST_DIFFERENCES = 20
FREE = ",".join(["1000"] * 8)
LINK = f"put,1.1.1.1,10.0.12.1,2.2.2.2,10.0.12.2,10,0x1,{FREE}"
BACK = f"put,2.2.2.2,10.0.12.2,1.1.1.1,10.0.12.1,10,0x1,{FREE}"
ASK = "ask,7,1.1.1.1,2.2.2.2,0,1000,0x0,0x0,0x0,"
ROWS = [
    LINK, "drop,1.1.1.1,10.0.12.1", "node,1.1.1.1,0", "end,2,0", ASK, "ask,1,1.1.1.1,2.2.2.2,7,1000,0xA,0x1,0x0000001,",
    "ask,1,1.1.1.1,2.2.2.2,0,1,0x0,0x0,0x0,2.2.2.2/32s 10.0.0.0/8l", "ask,4,1.1.1.1,2.2.2.2,0,1,0x0,0x0,0x0,ero:000c140181080a0a0a0a0801",
]


@dataclasses.dataclass
class Run:
    """A run of a command over streams, and what was changed in them."""
    command: str  # solve, batch, live or audit
    texts: list
    words: list = dataclasses.field(default_factory=list)
    changes: list = dataclasses.field(default_factory=list)
    name: str = ""


# ---- the program


class Program:
    """The built program. A live run's journal comes with what it answers."""

    def __init__(self, path, room):
        self.path = path
        self.room = room

    def answer(self, run):
        """Status, standard output, standard error, and the journal of a live run."""
        words, given = [self.path, run.command], None
        kept = os.path.join(self.room, f"{os.getpid()}.journal")
        if run.command == "solve":
            given = run.texts[0].encode("latin-1")
        else:
            words += self.files(run, kept)
        try:
            ran = subprocess.run([*words, *run.words], input=given, stdin=None if given is not None else subprocess.DEVNULL,
                                 capture_output=True, timeout=60)
        except subprocess.TimeoutExpired:
            return None, "", "no end after 60 seconds", ""
        journal = ""
        if run.command == "live" and os.path.exists(kept):
            journal = read(kept)
            os.remove(kept)
        return ran.returncode, ran.stdout.decode("latin-1"), ran.stderr.decode("latin-1"), journal

    def files(self, run, kept):
        """The options that name the streams, each in a file."""
        options = {
            "batch": ["--journal", "--requests"], "live": ["--updates", "--requests"], "audit": ["--journal", "--requests", "--replies"],
        }[run.command]
        words = []
        for option, text in zip(options, run.texts):
            path = os.path.join(self.room, f"{os.getpid()}{option}")
            with open(path, "wb") as file:
                file.write(text.encode("latin-1"))
            words += [option, path]
        return words + (["--journal", kept] if run.command == "live" else [])


class Reference:
    """The reference, or a wrong program made of it, as a program."""

    def __init__(self, module=runs):
        self.module = module

    def answer(self, run, named=()):
        """As the program answers; of a live run `named` has the version that each reply names."""
        journal = ""
        if run.command == "solve":
            status, lines = self.module.solve(*run.texts)
        elif run.command == "batch":
            status, lines = self.module.batch(*run.texts, "--accept-torn" in run.words)
        elif run.command == "audit":
            status, lines = self.module.audit(*run.texts)
        else:
            status, lines, journal = self.module.live(*run.texts, named)
        return status, "".join(f"{line}\n" for line in lines), "", journal


def compared(program, run):
    """What the program answers and what it should, if these differ."""
    found = program.answer(run)
    named = [int(version) for version in re.findall(r"(?m)^ask [0-9]+ v([0-9]{1,7}) ", found[1])]
    wanted = Reference().answer(run, named)
    return None if found == wanted else (found, wanted)


# ---- what is tried


def read(path):
    with open(path, encoding="latin-1", newline="") as file:
        return file.read()


def worked(folder, *endings):
    """The worked streams of a folder of tests, those of one name together."""
    folder = os.path.join(HERE, folder)
    names = sorted(name[:-len(endings[0])] for name in os.listdir(folder) if name.endswith(endings[0]))
    return [[read(os.path.join(folder, name + ending)) for ending in endings] for name in names]


SCRIPTS, JOURNALS = worked("scripts", ".rows"), worked("journals", ".journal", ".requests")


def base(draw, worked_ones, *drawn):
    """Streams to be changed, drawn or worked ones."""
    return [stream(draw) for stream in drawn] if draw.random() < 0.8 else list(draw.choice(worked_ones))


def replies(draw, journal, requests):
    """Reply lines that are right, each at a version of its own, among other lines that a run writes, and now and then one of no request."""
    networks, _ = runs.publish(runs.whole_batches(journal, True))
    lines = [f"version {version}" for version in range(1, len(networks))]
    for request in runs.requests_of(requests):
        version = draw.randrange(len(networks))
        lines.append(networks[version].answer(version, request))
    lines += draw.choice([[], [], [], ["ask 99 v0 none"], ["ask 99 v0 none"] * 2])
    return "".join(f"{line}\n" for line in [*lines, f"applied {len(networks) - 1}"])


def drawn_run(seed, number):
    draw = random.Random(f"{seed}.{number}")
    name = f"seed {seed}, number {number}"
    kind = draw.choices(["script", "batch", "live", "object", "audit"], [50, 25, 10, 15, 20])[0]
    if kind == "script":
        text, names = changes.changed(draw, *base(draw, SCRIPTS, changes.script))
        return Run("solve", [text], [], names, name)
    if kind == "object":
        return Run("solve", [changes.object_script(draw)], [], ["object"], name)
    if kind == "audit":
        texts = [changes.journal(draw), changes.requests(draw)]
        texts.append(replies(draw, *texts))
        places = [[2], [2], [2], [2], [0], [1], [0, 1], [0, 1, 2]]
    else:
        texts = base(draw, JOURNALS, changes.journal, changes.requests)
        places = [[0], [0], [1], [0, 1]]
    names, words = [], []
    for at in draw.choice(places):
        texts[at], more = changes.changed(draw, texts[at], changes.OF_REPLIES if at == 2 else changes.USUAL)
        names += more
    if kind == "batch":
        words = draw.choice([[], ["--accept-torn"]]) + draw.choice([[], [], [], ["--workers", "3"]])
    return Run(kind, texts, words, names, name)


OBJECT = bytes.fromhex("00141401" "81080a0a0a0a0801" "01080a000c022000")
BEFORE, BEHIND = f"{LINK}\n{BACK}\nend,1,2\n", f"\nend,2,1\n{ASK}\n"


def cut_runs():
    """Each worked row cut at each byte and parted at each byte; a journal and an object cut at each byte."""
    for row in ROWS:
        for at in range(len(row) + 1):
            yield Run("solve", [BEFORE + row[:at]], [], ["row cut"], f"{row!r} cut at {at}")
            yield Run("solve", [BEFORE + row[:at] + BEHIND], [], ["row cut"], f"{row!r} cut at {at}, and rows behind it")
            yield Run("solve", [BEFORE + row[:at] + "\n" + row[at:] + BEHIND], [], ["row parted"], f"{row!r} parted at {at}")
            yield Run("solve", [BEFORE + row[:at] + row[at + 1:] + BEHIND], [], ["row without a byte"], f"{row!r} without byte {at}")
    journal = BEFORE + "drop,1.1.1.1,10.0.12.1\nend,2,1\n" + LINK.replace("0x1,", "0x00000001,") + "\nend,3,1\nnode,2.2.2.2,0\nend,4,1\n"
    for at in range(len(journal) + 1):
        for words in [], ["--accept-torn"]:
            yield Run("batch", [journal[:at], ASK], words, ["journal cut"], f"a journal cut at {at}")
        yield Run("live", [journal[:at], ASK], [], ["updates cut"], f"updates cut at {at}")
    for at in range(len(ASK) + 1):
        yield Run("batch", [BEFORE, f"{ASK}\n{ASK[:at]}"], [], ["requests cut"], f"requests cut at {at}")
    for at in range(len(OBJECT) + 1):
        for length in len(OBJECT), at:
            cut = (length.to_bytes(2, "big") + OBJECT[2:])[:at]
            yield Run("solve", [f"{BEFORE}{ASK}ero:{cut.hex()}\n"], [], ["object cut"],
                      f"an object cut at {at}, whose length field is {length}")


def edge_runs():
    """Each value of each worked row at its edges, and each of its fields in quotes of each form."""
    for row in ROWS:
        for place in changes.VALUE.finditer(row):
            for other in changes.at_edges(row, place):
                yield Run("solve", [BEFORE + other + BEHIND], [], ["row with an edge"], f"{row!r} as {other!r}")
        fields = row.split(",")
        for at, field in enumerate(fields):
            for other in changes.quoted(field, len(field) // 2):
                text = ",".join([*fields[:at], other, *fields[at + 1:]])
                yield Run("solve", [BEFORE + text + BEHIND], [], ["row with quotes"], f"{row!r} as {text!r}")


def byte_runs():
    """Each byte of each worked row and of an object as each of the 256 bytes, those of one place in one stream. A quote comes last, since
    it may open."""
    values = [value for value in range(256) if chr(value) != '"'] + [ord('"')]
    for row in ROWS:
        for at in range(len(row)):
            rows = "".join(f"{row[:at]}{chr(value)}{row[at + 1:]}\n" for value in values)
            yield Run("solve", [BEFORE + rows + BEHIND], [], ["each byte of a row"], f"byte {at} of {row!r}")
    for at in range(len(OBJECT)):
        rows = "".join(f"{ASK}ero:{(OBJECT[:at] + bytes([value]) + OBJECT[at + 1:]).hex()}\n" for value in values)
        yield Run("solve", [BEFORE + rows], [], ["each byte of an object"], f"byte {at} of an object")


def limit_runs():
    """Batches, databases and rows at their limits and one past them."""
    def address(top, n):
        return f"{top}.{n >> 16}.{n >> 8 & 255}.{n & 255}"

    def put(start, local, end, remote="10.0.12.2"):
        return f"put,{start},{local},{end},{remote},10,0x1,{FREE}"

    def script(*batches):
        return "".join("".join(f"{row}\n" for row in [*rows, f"end,{number},{len(rows)}"])
                       for number, rows in enumerate(batches, 1)) + f"{ASK}\n"

    links = [put("1.1.1.1", address(10, n), "2.2.2.2") for n in range(16_385)]
    links[2] = put("2.2.2.2", "10.0.12.2", "1.1.1.1", address(10, 1))  # the reverse of the one before
    pairs = [put(address(1, 2 * n), "10.0.0.1", address(1, 2 * n + 1)) for n in range(513)]
    quarters = [links[at:at + 4096] for at in range(0, 16_384, 4096)]
    first, third = "drop,1.1.1.1,10.0.0.0", put(address(1, 0), "10.0.0.2", address(2, 0))
    marks = [f"node,{address(3, n)},0" for n in range(1026)]
    free = [f"node,{address(3, n)},1" for n in range(1025)]
    for name, text in [
        ("1,024 routers, and one more", script(pairs[:512], [third])),
        ("1,026 routers", script(pairs)),
        ("a router in another's place", script(pairs[:512], [f"drop,{address(1, 1022)},10.0.0.1", third])),
        ("4,096 changes", script(links[:4096])),
        ("4,097 changes", script(links[:4097]) + script([])),
        ("4,097 changes, two of one link", script([*links[:4096], links[0]])),
        ("4,096 changes, two of one link", script([*links[:4095], links[0]])),
        ("16,384 links, one more, and one in another's place",
         script(*quarters, links[16_384:]) + f"{first}\n{links[16_384]}\nend,5,2\n{ASK}\n"),
        ("one of 16,384 links put anew", script(*quarters, links[:1])),
        ("1,024 marks, and one more", script(marks[:1024], marks[1024:1025])),
        ("1,025 marks", script(marks[:1025])),
        ("a mark that is there, and one more in another's place",
         script(marks[:1024], marks[:1]) + f"{free[0]}\n{marks[1024]}\nend,3,2\n{marks[1025]}\nend,4,1\n"),
        ("one more in another's place, before that one goes", script(marks[:1024], [marks[1024], free[0]])),
        ("1,024 marks, and two changes of one", script(marks[:1024], [marks[1024], free[1024]])),
        ("1,025 marks, and 1,025 routers", script(pairs[:512], [*marks[:1025], third], [third, *marks[:1024]])),
        ("1,025 marks, and 16,385 links", script(*quarters, [links[16_384], *marks[:1025]])),
        ("4,096 changes of transit, and one more", script([f"node,{address(3, n)},1" for n in range(4096)],
                                                          [f"node,{address(3, n)},1" for n in range(4097)])),
        ("each of 1,024 marks taken away", script(marks[:1024], free[:1024], marks[1:1025])),
        ("a field of a megabyte in each kind of row", "".join(f"{row.replace(',', ',' + '9' * 1_000_000, 1)}\n" for row in ROWS)),
        ("a megabyte of commas", "put" + "," * 1_000_000 + f"\n{ASK}\n"),
        ("a megabyte of line feeds", "\n" * 1_000_000 + f"{ASK}\n"),
        ("a megabyte in quotes", '"' + "a,\n" * 300_000 + f'"\n{ASK}\n'),
        ("a quote that is open for a megabyte", f'{ASK}\n"' + "a,\n" * 300_000),
    ]:
        yield Run("solve", [text], [], ["limit"], name)


# ---- differences


def shorter(program, run):
    """A run with fewer lines and bytes that still differs. Long streams stay as they are."""
    texts = list(run.texts)
    for at in range(len(texts)):
        def differs(parts):
            return compared(program, dataclasses.replace(run, texts=[*texts[:at], "".join(parts), *texts[at + 1:]]))
        for cut in (lambda text: text.splitlines(keepends=True), list):
            parts = cut(texts[at])
            if len(parts) < 3000:
                texts[at] = "".join(shortened(parts, differs))
    return dataclasses.replace(run, texts=texts)


def kept(run, folder):
    """The names of files that hold a run's streams."""
    os.makedirs(folder)
    names = []
    for at, text in enumerate(run.texts):
        names.append(os.path.join(folder, f"{run.command}.{at + 1}"))
        with open(names[-1], "wb") as file:
            file.write(text.encode("latin-1"))
    return names


def report(program, run, found, wanted):
    """The words of a difference; its streams, and the shortest that differ, are kept."""
    folder = tempfile.mkdtemp(prefix="changed-")
    least = shorter(program, run)
    files = kept(run, os.path.join(folder, "whole")) + kept(least, os.path.join(folder, "shortest"))
    return (f"DIFFERS {run.name}: {run.command} {' '.join(run.words)} ({', '.join(run.changes)})\n  wanted {short(wanted)}\n  found  "
            f"{short(found)}\n"
            f"  shortest {short(least.texts)}\n  streams  {' '.join(files)}")


def tried(task):
    """The kind of a run, its changes, and the words of its difference, if it differs."""
    seed, number = task
    run = STATE["fixed"][number] if seed is None else drawn_run(seed, number)
    differs = compared(STATE["program"], run)
    return run.command, run.changes, report(STATE["program"], run, *differs) if differs else None


STATE = {}


def program_differs(path, count, seed, jobs):
    """Whether the program differs anywhere. Prints each difference, and then what was tried."""
    room = tempfile.mkdtemp(prefix="changed-", dir="/dev/shm" if os.access("/dev/shm", os.W_OK) else None)
    STATE.update(program=Program(path, room), fixed=[*limit_runs(), *cut_runs(), *edge_runs(), *byte_runs()])
    tasks = [(None, number) for number in range(len(STATE["fixed"]))] + [(seed, number) for number in range(count)]
    commands, kinds, differ = collections.Counter(), collections.Counter(), 0
    try:
        with multiprocessing.get_context("fork").Pool(jobs) as pool:
            for command, names, words in pool.imap_unordered(tried, tasks, chunksize=20):
                commands[command] += 1
                kinds.update(name.replace("_", " ") for name in names)
                if words:
                    differ += 1
                    print(words, flush=True)
                    if differ == MOST_DIFFERENCES:
                        print("no more is tried", flush=True)
                        break
    finally:
        shutil.rmtree(room)
    parts = [", ".join(f"{name} {number}" for name, number in sorted(counts.items())) for counts in (commands, kinds)]
    print(f"changed: {sum(commands.values())} runs, {differ} differ, of {len(tasks)}, {count} of which are drawn from seed {seed}: "
          f"{parts[0]}; {parts[1]}")
    return differ > 0


def untold(rules, runs, told):
    """The wrong programs of these rules that no run tells apart from the reference; `told` gets where the others were."""
    left = dict(wrong.programs(rules))
    for run in runs:
        if not left:
            break
        wanted = Reference().answer(run)
        for name in [name for name, module in left.items() if Reference(module).answer(run) != wanted]:
            told[name] = run.name
            del left[name]
    return list(left)


def wrong_programs_pass(count, seed):
    """Whether any wrong program isn't told apart. Prints where each was."""
    told = {}
    left = untold(wrong.RULES, (drawn_run(seed, number) for number in range(count)), told) + untold(wrong.LIMITS, limit_runs(), told)
    for name in left:
        print(f"NOT TOLD APART: a program that {name}")
    print(f"wrong: {len(told)} programs told apart, {len(left)} not; " + "; ".join(f"{name}: {place}" for name, place in told.items()))
    return bool(left)


def changed(program, checks):
    """As a part of tests/run: nothing differs, and wrong programs are told apart from the reference."""
    for words in [["--program", program.path], ["--wrong"]]:
        ran = subprocess.run([sys.executable, os.path.abspath(__file__), *words], capture_output=True, text=True)
        print(ran.stdout, end="")
        checks.true(f"changed.py {words}", ran.returncode == 0, ran.stderr)


def main():
    words = argparse.ArgumentParser(description=__doc__, formatter_class=argparse.RawDescriptionHelpFormatter)
    words.add_argument("--program", default=BUILT)
    words.add_argument("--changed", type=int, default=24_000, metavar="N")
    words.add_argument("--seed", type=int, default=1)
    words.add_argument("--jobs", type=int, default=4)
    words.add_argument("--wrong", action="store_true")
    given = words.parse_args()
    if given.wrong:
        sys.exit(wrong_programs_pass(given.changed, given.seed))
    sys.exit(program_differs(os.path.abspath(given.program), given.changed, given.seed, given.jobs))


if __name__ == "__main__":
    main()
