"""What requests take with the trees that they share and without, for bench/run --trees and --turns."""
import filecmp
import os
import subprocess
import tempfile

from drawn import address, loading, requests  # beside this file

RUNS = 3  # of each program whose processor time is taken
TAIL_ENDS = 20  # of the requests whose bandwidth many links lack


def apart(draw, rows):
    """The requests with masks that hardly two have in common. No link is in the groups that are excluded besides."""
    made = []
    for row in rows:
        fields = row.split(",")
        fields[6] = hex(int(fields[6], 16) | draw.getrandbits(28) << 4)
        made.append(",".join(fields))
    return made


def to_few(draw, routers, rows):
    """The requests with one of a few tail-ends, and without affinities."""
    ends, made = [address(1, at) for at in draw.sample(range(routers), TAIL_ENDS)], []
    for row in rows:
        fields = row.split(",")
        fields[3] = draw.choice([end for end in ends if end != fields[2]])
        fields[6] = "0x0"
        made.append(",".join(fields))
    return made


def in_turn(draw, routers, turns):
    """Requests for 3 classes of each tail-end, each class once in each turn."""
    classes = [(to, mask) for to in range(routers) for mask in ("0x0", "0x1", "0x8")]
    rows = []
    for _ in range(turns):
        draw.shuffle(classes)
        for to, mask in classes:
            start = (to + draw.randrange(1, routers)) % routers
            rows.append(f"ask,{len(rows)},{address(1, start)},{address(1, to)},{draw.randrange(8)},"
                        f"{draw.randrange(1, 600) * 1_000_000},{mask},0x0,0x0,\n")
    return rows


def seconds(words, out, rows=os.devnull):
    """Seconds of processor time of one run, which reads these rows and writes its lines to this file."""
    with open(out, "w") as lines, open(rows) as given:
        child = subprocess.Popen(words, stdin=given, stdout=lines)
        _, status, usage = os.wait4(child.pid, 0)
    child.returncode = os.waitstatus_to_exitcode(status)
    if child.returncode:
        raise SystemExit(f"bench/run: {' '.join(words)}: ended with status {child.returncode}")
    return usage.ru_utime + usage.ru_stime


def both(program, room, load, asks):
    """Microseconds of processor time that a request takes with trees, and without. Both runs have to write the same lines."""
    journal, rows, none, one, other = (os.path.join(room, name) for name in ("journal", "requests", "none", "one", "other"))
    for name, lines in zip((journal, rows, none), (load, asks, [])):
        with open(name, "w") as file:
            file.writelines(lines)
    words = [program, "batch", "--journal", journal, "--workers", "1", "--requests"]
    least = min(seconds([*words, none], one) for _ in range(RUNS))
    times = [(seconds([*words, rows], one), seconds([*words, rows, "--trees", "0"], other)) for _ in range(RUNS)]
    if not filecmp.cmp(one, other, shallow=False):
        raise SystemExit("bench/run: the answers with trees aren't those without")
    return [(min(each) - least) * 1e6 / len(asks) for each in zip(*times)]


def solved(program, room, load, asks):
    """Microseconds of processor time that a request takes in `solve` with trees, and without. Both runs have to write the same lines."""
    loads, rows, one, other = (os.path.join(room, name) for name in ("loads", "rows", "one", "other"))
    for name, lines in ((loads, load), (rows, load + asks)):
        with open(name, "w") as file:
            file.writelines(lines)
    least = min(seconds([program, "solve"], one, loads) for _ in range(RUNS))
    times = [(seconds([program, "solve"], one, rows), seconds([program, "solve", "--trees", "0"], other, rows)) for _ in range(RUNS)]
    if not filecmp.cmp(one, other, shallow=False):
        raise SystemExit("bench/run: the answers with trees aren't those without")
    return [(min(each) - least) * 1e6 / len(asks) for each in zip(*times)]


def turns(program, draw, pairs, routers, counts, say):
    """Prints what requests take in `solve` if each of 3 classes of each tail-end is asked so many times, one class after the other."""
    with tempfile.TemporaryDirectory() as room:
        for metrics, said in [(1000, "metrics 1 to 1,000"), (1, "metrics all 1")]:
            load = loading(draw, pairs, metrics)
            for count in counts:
                asks = in_turn(draw, routers, count)
                shared, plain = solved(program, room, load, asks)
                say(f"{said}, {3 * routers:,} classes asked {count} times in turn: {shared:,.1f} microseconds a request, {plain:,.1f} "
                    f"without trees: {shared / plain:.2f} of it")


def trees(program, draw, pairs, routers, count, say):
    """Prints what requests of each kind take, of which the first kind has so many."""
    kinds = [("without hops", requests(draw, routers, count, 0)),
             ("without hops, by masks of their own", apart(draw, requests(draw, routers, count // 10, 0))),
             ("with 7 loose hops of one router each", requests(draw, routers, count // 10, 7, True)),
             ("with 2 hops", requests(draw, routers, count // 50, 2))]
    few = to_few(draw, routers, requests(draw, routers, count // 50, 0))
    with tempfile.TemporaryDirectory() as room:
        for metrics, said in [(1000, "metrics 1 to 1,000"), (1, "metrics all 1")]:
            load = loading(draw, pairs, metrics)
            for kind, asks in kinds:
                shared, plain = both(program, room, load, asks)
                say(f"{said}, {len(asks):,} requests {kind}: {shared:,.1f} microseconds a request, {plain:,.1f} without trees: "
                    f"{shared / plain:.2f} of it")
            shared, plain = both(program, room, loading(draw, pairs, metrics, 0), few)
            say(f"{said}, {len(few):,} requests to {TAIL_ENDS} tail-ends where bandwidth binds: {shared:,.1f} microseconds a request, "
                f"{plain:,.1f} without trees: {shared / plain:.2f} of it")
