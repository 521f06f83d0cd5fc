"""How long the search and the table take by themselves, for bench/run."""
import os
import shutil
import subprocess
import sys
import tempfile

from drawn import BATCH, drop, loading, marking, put, requests
from timing import median, say, searched, used

PASSES = {"plain": 5, "bidirectional": 20}  # how often each plain search answers the requests in a run


def alone(searcher, load, asks):
    """Seconds that `best` takes for a request by itself, the least of five, if the program that times it is built."""
    if not os.path.exists(searcher):
        return None
    with tempfile.TemporaryDirectory() as room:
        files = [os.path.join(room, name) for name in ("journal", "requests")]
        for name, lines in zip(files, (load, asks)):
            with open(name, "w") as file:
                file.writelines(lines)
        loads = str(sum(line.startswith("end,") for line in load))
        return min(micros / answers for answers, _, micros in searched([searcher, *files, loads, "0"])["best"]) / 1e6


def edits(draw, pairs, routers, number):
    """Batches on the loaded network, each with what it does: replace links, remove circuits and put as
    many anew, withdraw one direction and put it back, or replace links of which one runs to a router
    that comes, then to another, so that the first goes as this one comes, and then back."""
    lines, kinds, free = [], [], len(pairs)
    links = dict(enumerate(pairs))

    def end(rows, kind):
        lines.extend(rows + [f"end,{number + len(kinds)},{len(rows)}\n"])
        kinds.append(kind)

    for size in sorted({1, min(100, len(pairs) // 2), min(BATCH, len(pairs) // 2)}):
        for _ in range(9):
            places = draw.sample(sorted(links), size)
            end([put(draw, place, links[place]) for place in places], f"{size:,} replaced")
        for _ in range(9):
            if size == 1:
                place = draw.choice(sorted(links))
                end([drop(place, links[place])], "1 removed")
                end([put(draw, place, links[place])], "1 new")
                continue
            gone = [place ^ way for place in draw.sample(sorted(links)[::2], size // 4) for way in (0, 1)]
            mixed = [drop(place, links.pop(place)) for place in gone]
            for place in range(free, free + len(gone), 2):
                links[place], links[place + 1] = (pair := draw.choice(pairs)), pair[::-1]
                mixed += [put(draw, at, links[at]) for at in (place, place + 1)]
            free += len(gone)
            draw.shuffle(mixed)
            end(mixed, f"{size:,}, half removed and half new")
        for _ in range(9):
            places = draw.sample(sorted(links), size)
            rest = [put(draw, place, links[place]) for place in places[1:]]
            for there, kind in [(routers, "a router comes"), (routers + 1, "one comes as another goes"),
                                (links[places[0]][1], "a router goes")]:
                end([put(draw, places[0], (links[places[0]][0], there))] + rest, f"{size:,} replaced, {kind}")
    return lines, kinds


def compiled(source, room):
    """The plain search as a program, if there is a compiler for it."""
    if shutil.which("rustc") is None:
        return None
    program = os.path.join(room, "plain_search")
    subprocess.run(["rustc", "--edition", "2021", "-O", "-o", program, source], check=True)
    return program


def search(program, source, draw, pairs, routers, marks, of_one):
    """Prints the times of both searches, and of the plain ones beside them."""
    with tempfile.TemporaryDirectory() as room:
        plain = None if marks else compiled(source, room)
        if plain is None and not marks:
            say("no rustc: the plain searches aren't timed")
        for metrics, said in [(1000, "metrics 1 to 1,000"), (1, "metrics all 1")]:
            load = loading(draw, pairs, metrics)
            load += marking(routers, marks, sum(line.startswith("end,") for line in load) + 1)
            without = None
            for hops in [0, 2, 7]:
                asks = requests(draw, routers, 1000 if hops else 4000, hops, of_one)
                each = search_at(program, None if hops else plain, room, load, asks, f"{said}, {hops} hops", without)
                without = without or each


def search_at(program, plain, room, load, asks, said, without):
    """Microseconds of processor time that `best` takes for a request, printed with those of the other searches."""
    journal, rows, none = (os.path.join(room, name) for name in ("journal", "requests", "none"))
    for name, lines in zip((journal, rows, none), (load, asks, [])):
        with open(name, "w") as file:
            file.writelines(lines)
    loads, names = str(sum(line.startswith("end,") for line in load)), list(PASSES) if plain else []
    rounds = 2 if without else 20
    found = searched([program, journal, rows, loads, str(rounds)])
    for name in names:
        if searched([plain, journal, rows, loads, "0", name])[name][0] != found["best"][0][:2]:
            sys.exit(f"bench/run: the {name} search finds routes of other costs")
    runs = [[[program, journal, asked, loads, "0"] for asked in (rows, none)]]
    runs += [[[plain, journal, rows, loads, str(times), name] for times in (PASSES[name], 0)] for name in names]
    passes = [len(found["best"])] + [PASSES[name] for name in names]
    each, *others = (seconds * 1e6 / times / len(asks) for seconds, times in zip(used(runs), passes))
    answered, agreed = found["rounds"][0], found["agreed"][0][0]
    by_rounds = f"round by round {answered[2] / answered[0]:,.0f}, the same answer for {agreed} of {rounds}"
    say(f"{said}: {each:,.1f} microseconds a request, {by_rounds}" + (f"; {each / without:.1f} times one without" if without else ""))
    for name, other in zip(names, others):
        say(f"{said}, the {name} search: {other:,.1f} microseconds a request, `best` takes {each / other:.2f} times it")
    return each


def absorb(program, draw, pairs, routers, marks):
    """Prints the times of batches on the table."""
    load = loading(draw, pairs)
    load += marking(routers, marks, sum(line.startswith("end,") for line in load) + 1)
    loads = sum(line.startswith("end,") for line in load)
    more, kinds = edits(draw, pairs, routers, loads + 1)
    with tempfile.NamedTemporaryFile("w") as journal, tempfile.NamedTemporaryFile("w") as rows:
        journal.writelines(load + more)
        journal.flush()
        times = {}
        for kind, (_, micros) in zip(kinds, searched([program, journal.name, rows.name, str(loads), "0"])["absorb"], strict=True):
            times.setdefault(kind, []).append(micros)
    for kind, each in times.items():
        say(f"{kind}: {median(each):,} microseconds, {max(each):,} at most")
