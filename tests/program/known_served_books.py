"""Runs of `routed serve --book` whose lines, kept rows and journal are known: each with the rows of `--begin`, where it has some."""
from program import known_compacts
from program.held_books import BACK, ROUND
from program.known_books import BASE, CIRCUIT, DIRECT, ENDS, FREE, held_row, offer, place
from program.known_compacts import ASK, FIRST, LEFT, SECOND, WRITTEN, written

LINK = "1.1.1.1,10.0.12.1"
SHOWN = f"from=1.1.1.1 to=2.2.2.2 hold=7 bandwidth=1 links=1 {LINK}"
NONE = ",".join(["0"] * 8)
DROPS = "drop,1.1.1.1,10.0.12.1\ndrop,2.2.2.2,10.0.12.2\n"
BESIDE = "1.1.1.1,10.0.12.5,2.2.2.2,10.0.12.6"  # a circuit beside that of BASE
OVER_BESIDE = "route cost=20 hops=1 again=no ero=000c140101080a000c062000"


def left(figure, priority=7, more=1000):
    """The bandwidths of a link: this figure at a priority and those below it, and more above it."""
    return ",".join([str(more)] * priority + [str(figure)] * (8 - priority))


def put(free, ends=ENDS[0], metric=10, group="0x00000001"):
    return f"put,{ends},{metric},{group},{free}\n"


def circuit(ends, metric, free=FREE):
    """Both directions of a circuit."""
    near, here, far, there = ends.split(",")
    return put(free, ends, metric) + put(free, f"{far},{there},{near},{here}", metric)


def rows_of_books():
    """Runs without a beginning: their rows, lines, kept rows, and the journal."""
    yield "nothing", "", "", "", ""
    yield "a base", BASE, "base 1 v1\n", WRITTEN, WRITTEN
    yield "a placement, another in its place, and its release", BASE + place(1) + place(1, 0, 5) + "release,1\nend,2,0\n", (
        f"base 1 v1\nplace 1 v2 {DIRECT}\nplace 1 v3 {DIRECT}\nreleased 1 v4\nbase 2 v5\n"), (
        WRITTEN + place(1) + place(1, 0, 5) + "release,1\nend,2,0\n"), (
        "put,1.1.1.1,10.0.12.1,2.2.2.2,10.0.12.2,10,0x00000001,1000,1000,1000,1000,1000,1000,1000,1000\n"
        "put,2.2.2.2,10.0.12.2,1.1.1.1,10.0.12.1,10,0x00000001,1000,1000,1000,1000,1000,1000,1000,1000\n"
        "end,1,2\n"
        "put,1.1.1.1,10.0.12.1,2.2.2.2,10.0.12.2,10,0x00000001,1000,1000,1000,1000,1000,1000,1000,999\n"
        "end,2,1\n"
        "put,1.1.1.1,10.0.12.1,2.2.2.2,10.0.12.2,10,0x00000001,995,995,995,995,995,995,995,995\n"
        "end,3,1\n"
        "put,1.1.1.1,10.0.12.1,2.2.2.2,10.0.12.2,10,0x00000001,1000,1000,1000,1000,1000,1000,1000,1000\n"
        "end,4,1\n"
        "end,5,0\n")
    yield "rows that only ask make no version", BASE + ASK + offer(3) + "show,1\n" + LEFT + place(1, bandwidth=2000) + (
        place(1, ends="9.9.9.9,2.2.2.2") + place(2) + "show,2\n" + LEFT + offer(3, bandwidth=1000)), (
        f"base 1 v1\nask 9 v1 {DIRECT}\noffer 3 v1 {DIRECT}\nshow 1 refused: absent\n"
        f"left {LINK} v1 base={FREE} counted={NONE} left={FREE}\nplace 1 v1 none\nplace 1 v1 unknown-from\n"
        f"place 2 v2 {DIRECT}\nshow 2 v2 {SHOWN}\nleft {LINK} v2 base={FREE} counted={left(1, 7, 0)} left={left(999)}\n"
        "offer 3 v2 none\n"), WRITTEN + place(2), WRITTEN + put(left(999)) + "end,2,1\n"
    yield "batches without changes", "end,1,0\n" + held_row(1) + "end,2,0\nrelease,1\n", (
        "base 1 v1\nheld 1 v2\nbase 2 v3\nreleased 1 v4\n"), "end,1,0\n" + held_row(1) + "end,2,0\nrelease,1\n", (
        "end,1,0\nend,2,0\nend,3,0\nend,4,0\n")
    rising = "5,9,3,4,1000,1000,2,7"
    rows = f"put,{ENDS[0]},10,0xAB,{rising}\nnode,7.7.7.7,0\nput,{ENDS[1]},4,0x1,{FREE}\nend,1,3\n"
    yield "bandwidths that rise, a mark, and a mask in upper case", rows + place(1, 4, 2) + "release,1\n", (
        f"base 1 v1\nplace 1 v2 {DIRECT}\nreleased 1 v3\n"), rows.replace("0xAB", "0x000000ab").replace("0x1,", "0x00000001,") + (
        place(1, 4, 2) + "release,1\n"), (
        put("5,5,3,3,3,3,2,2", group="0x000000ab") + "node,7.7.7.7,0\n" + put(FREE, ENDS[1], 4) + "end,1,3\n"
        + put("5,5,3,3,3,3,0,0", group="0x000000ab") + "end,2,1\n" + put("5,5,3,3,3,3,2,2", group="0x000000ab") + "end,3,1\n")
    half = ",".join(["500"] * 8)
    batch = put(half) + "drop,2.2.2.2,10.0.12.2\nend,2,2\n"
    yield "over and lost", BASE + place(1, bandwidth=900) + batch + "release,1\n", (
        f"base 1 v1\nplace 1 v2 {DIRECT}\nover {LINK} 7\nlost 1\nbase 2 v3\nreleased 1 v4\n"), (
        WRITTEN + place(1, bandwidth=900) + batch + "release,1\n"), (
        WRITTEN + put(left(100)) + "end,2,1\n" + put(left(0, 7, 500)) + "drop,2.2.2.2,10.0.12.2\nend,3,2\n" + put(half) + "end,4,1\n")
    yield from moves()
    yield from held_rows()
    yield from open_changes()


def moves():
    """Routes that change, and links that go and come."""
    yield "a release after its links are gone", BASE + place(1) + DROPS + "end,2,2\nrelease,1\n", (
        f"base 1 v1\nplace 1 v2 {DIRECT}\nlost 1\nbase 2 v3\nreleased 1 v4\n"), WRITTEN + place(1) + DROPS + "end,2,2\nrelease,1\n", (
        WRITTEN + put(left(999)) + "end,2,1\n" + DROPS + "end,3,2\nend,4,0\n")
    yield "links that are gone and come back", BASE + place(1, 3, 7) + DROPS + f"end,2,2\n{CIRCUIT}end,3,2\nrelease,1\n", (
        f"base 1 v1\nplace 1 v2 {DIRECT}\nlost 1\nbase 2 v3\nbase 3 v4\nreleased 1 v5\n"), (
        f"{WRITTEN}{place(1, 3, 7)}{DROPS}end,2,2\n{FIRST}{SECOND}end,3,2\nrelease,1\n"), (
        f"{WRITTEN}{put(left(993, 3))}end,2,1\n{DROPS}end,3,2\n{put(left(993, 3))}{SECOND}end,4,2\n{FIRST}end,5,1\n")
    turned = "1.1.1.1,10.0.12.1,3.3.3.3,10.0.13.3", "3.3.3.3,10.0.13.3,1.1.1.1,10.0.12.1"
    rows = WRITTEN + place(1, 3, 7) + DROPS + f"end,2,2\n{put(FREE, turned[0])}{put(FREE, turned[1])}end,3,2\n"
    yield "a release after its link came back to another router", rows + "release,1\n", (
        f"base 1 v1\nplace 1 v2 {DIRECT}\nlost 1\nbase 2 v3\nbase 3 v4\nreleased 1 v5\n"), rows + "release,1\n", (
        f"{WRITTEN}{put(left(993, 3))}end,2,1\n{DROPS}end,3,2\n{put(left(993, 3), turned[0])}{put(FREE, turned[1])}end,4,2\n"
        f"{put(FREE, turned[0])}end,5,1\n")
    again = [place(1, bandwidth=900), place(1, bandwidth=950), place(1, 0, 1000)]
    yield "a placing along links whose bandwidth it holds", BASE + "".join(again) + place(1, 0, 1001) + place(2), (
        f"base 1 v1\nplace 1 v2 {DIRECT}\nplace 1 v3 {DIRECT}\nplace 1 v4 {DIRECT}\nplace 1 v4 none\nplace 2 v4 none\n"), (
        WRITTEN + "".join(again)), WRITTEN + "".join(f"{put(left(figure, hold))}end,{at},1\n" for at, (figure, hold) in enumerate(
            ((100, 7), (50, 7), (0, 0)), 2))
    both = FIRST + SECOND + circuit(BESIDE, 20) + "end,1,4\n"
    dearer = put(FREE, metric=30) + "end,2,1\n"
    yield "from one link to another", both + place(1, bandwidth=5) + dearer + place(1, bandwidth=6) + "release,1\n", (
        f"base 1 v1\nplace 1 v2 {DIRECT}\nbase 2 v3\nplace 1 v4 {OVER_BESIDE}\nreleased 1 v5\n"), (
        both + place(1, bandwidth=5) + dearer + place(1, bandwidth=6) + "release,1\n"), (
        both + put(left(995)) + "end,2,1\n" + put(left(995), metric=30) + "end,3,1\n" + put(FREE, metric=30) + put(left(994), BESIDE, 20)
        + "end,4,2\n" + put(FREE, BESIDE, 20) + "end,5,1\n")
    on, beside = "2.2.2.2,10.0.23.2,3.3.3.3,10.0.23.3", "2.2.2.2,10.0.23.6,3.3.3.3,10.0.23.7"
    line = FIRST + SECOND + circuit(on, 10) + circuit(beside, 20) + "end,1,6\n"
    dearer = put(FREE, on, 30) + "end,2,1\n"
    back = place(7, bandwidth=5, ends="3.3.3.3,1.1.1.1")
    yield "a route whose keys fall", line + back, (
        "base 1 v1\nplace 7 v2 route cost=20 hops=2 again=no ero=0014140101080a001702200001080a000c012000\n"), line + back, (
        line + put(left(995), "3.3.3.3,10.0.23.3,2.2.2.2,10.0.23.2") + put(left(995), ENDS[1]) + "end,2,2\n")
    far = [place(1, bandwidth=bandwidth, ends="1.1.1.1,3.3.3.3") for bandwidth in (5, 6)]
    ways = [f"route cost={cost} hops=2 again=no ero=0014140101080a000c02200001080a0017{end}2000" for cost, end in ((20, "03"), (30, "07"))]
    yield "a route whose first link stays", line + far[0] + dearer + far[1] + DROPS + "end,3,2\nrelease,1\n", (
        f"base 1 v1\nplace 1 v2 {ways[0]}\nbase 2 v3\nplace 1 v4 {ways[1]}\nlost 1\nbase 3 v5\nreleased 1 v6\n"), (
        line + far[0] + dearer + far[1] + DROPS + "end,3,2\nrelease,1\n"), (
        line + put(left(995)) + put(left(995), on) + "end,2,2\n" + put(left(995), on, 30) + "end,3,1\n"
        + put(left(994)) + put(FREE, on, 30) + put(left(994), beside, 20) + "end,4,3\n" + DROPS + "end,5,2\n"
        + put(FREE, beside, 20) + "end,6,1\n")


def held_rows():
    """Placements that come with their routes."""
    yield "a held row that counts more than its link has", BASE + held_row(1, 6, 2000) + "release,1\n", (
        f"base 1 v1\nover {LINK} 6\nover {LINK} 7\nheld 1 v2\nreleased 1 v3\n"), WRITTEN + held_row(1, 6, 2000) + "release,1\n", (
        WRITTEN + put(left(0, 6)) + "end,2,1\n" + FIRST + "end,3,1\n")
    yield "a held row along links that the base lacks", BASE + held_row(1, route=ROUND) + "release,1\n", (
        "base 1 v1\nheld 1 v2\nreleased 1 v3\n"), WRITTEN + held_row(1, route=ROUND) + "release,1\n", WRITTEN + "end,2,0\nend,3,0\n"
    half = "0a000c0103030303" + ROUND[16:]  # its first key is in the base, where it leads to another router
    row = held_row(1, 5, 9, route=half.upper())
    yield "a held row of which the base has one key", f'{BASE}{row[:4]},"1"{row[6:]}', "base 1 v1\nheld 1 v2\n", WRITTEN + row, (
        WRITTEN + put(left(991, 5)) + "end,2,1\n")
    again = held_row(1) + "release,1\n" + held_row(1, 0, 4) + place(1)
    yield "held, released, held again, and placed", BASE + again, (
        f"base 1 v1\nheld 1 v2\nreleased 1 v3\nheld 1 v4\nplace 1 v5 {DIRECT}\n"), WRITTEN + again, (
        WRITTEN + put(left(999)) + "end,2,1\n" + FIRST + "end,3,1\n" + put(left(996, 0)) + "end,4,1\n" + put(left(999)) + "end,5,1\n")


def open_changes():
    """Placing rows between the changes of a batch and its end row, and refused rows."""
    new = [put(FREE, ends, 20) for ends in ENDS]
    yield "placing rows among the changes of a batch", BASE + new[0] + place(1) + new[1] + "release,1\n" + held_row(2) + "end,2,2\n", (
        f"base 1 v1\nplace 1 v2 {DIRECT}\nreleased 1 v3\nheld 2 v4\nbase 2 v5\n"), (
        WRITTEN + place(1) + "release,1\n" + held_row(2) + "".join(new) + "end,2,2\n"), (
        WRITTEN + put(left(999)) + "end,2,1\n" + FIRST + "end,3,1\n" + put(left(999)) + "end,4,1\n"
        + put(left(999), metric=20) + new[1] + "end,5,2\n")
    yield "a placing row before the first batch", CIRCUIT + place(1) + held_row(2) + "end,1,2\n", (
        "place 1 v0 unknown-from\nheld 2 v1\nbase 1 v2\n"), held_row(2) + WRITTEN, "end,1,0\n" + put(left(999)) + SECOND + "end,2,2\n"
    yield "refused rows make no version", "".join([
        BASE, "foo\n", "end,7,0\n", DROPS, "end,2,3\n", "drop,9.9.9.9,9.9.9.9\nend,2,1\n", DROPS, DROPS, "end,2,4\n",
        held_row(1, route=BACK), held_row(1), held_row(1), "release,2\n", place(2, hops="2.2.2.2/32l 1.1.1.1/32l"),
        "except,1,1.1.1.1,2.2.2.2,7,0,0x0,0x0,0x0,,1.1.1.1/32i\n", "end,2,0\n", DROPS]), (
        "base 1 v1\nrow 4 refused: kind\nbatch 7 refused: expected 2\nbatch 2 refused: counted 2\nbatch 2 refused: absent 1\n"
        "batch 2 refused: duplicate 3\nheld 1 refused: twice\nheld 1 v2\nheld 1 refused: same-id\nrelease 2 refused: absent\n"
        "place 2 refused: twice\nrow 21 refused: kind\nbase 2 v3\nunended 2\n"), WRITTEN + held_row(1) + "end,2,0\n", (
        WRITTEN + put(left(999)) + "end,2,1\nend,3,0\n")


def begun():
    """Runs that begin with the rows of a book: these rows, the others, lines, kept rows, and the journal."""
    yield "begun with nothing", "", BASE, "base 1 v1\n", WRITTEN, WRITTEN
    yield "begun with a base that is empty again", f"{BASE}{DROPS}end,2,2\n", "end,3,0\n", "base 3 v1\n", "end,3,0\n", "end,1,0\n"
    yield "begun with a placement and no base", held_row(1), f"show,1\n{BASE}show,1\n", (
        f"show 1 v0 {SHOWN}\nbase 1 v1\nshow 1 v1 {SHOWN}\n"), WRITTEN, put(left(999)) + SECOND + "end,1,2\n"
    begin = BASE + place(1) + place(2) + "release,1\nend,2,0\n"
    yield "begun with a book of several versions", begin, place(3) + "end,2,0\nend,3,0\nshow,2\nrelease,1\nrelease,2\n" + LEFT, (
        f"place 3 v2 {DIRECT}\nbatch 2 refused: expected 3\nbase 3 v3\nshow 2 v3 {SHOWN}\nrelease 1 refused: absent\nreleased 2 v4\n"
        f"left {LINK} v4 base={FREE} counted={left(1, 7, 0)} left={left(999)}\n"), place(3) + "end,3,0\nrelease,2\n", (
        put(left(999)) + SECOND + "end,1,2\n" + put(left(998)) + "end,2,1\nend,3,0\n" + put(left(999)) + "end,4,1\n")
    yield "begun with a book, and nothing more", begin, "", "", "", put(left(999)) + SECOND + "end,1,2\n"
    yield "rows are numbered behind a beginning", begin, "foo\n", "row 1 refused: kind\n", "", put(left(999)) + SECOND + "end,1,2\n"
    back = held_row(9, 7, 1500, ends="2.2.2.2,1.1.1.1", route="0a000c0201010101")
    begin = f"{BASE}{back}{held_row(1, 6, 2000)}{held_row(3, 0, 9, route=ROUND)}node,2.2.2.2,0\nnode,1.0.0.9,0\nend,2,2\n"
    yield "begun with links of which more is counted than they have", begin, held_row(2), (
        f"over {LINK} 6\nover {LINK} 7\nover 2.2.2.2,10.0.12.2 7\nheld 2 v2\n"), held_row(2), (
        put(left(0, 6)) + put(left(0), ENDS[1]) + "node,1.0.0.9,0\nnode,2.2.2.2,0\nend,1,4\n" + put(left(0, 6)) + "end,2,1\n")
    yield "begun with a link of which all is counted", BASE + place(1, 5, 1000), ASK + place(2), (
        f"ask 9 v1 {DIRECT}\nplace 2 v1 none\n"), "", put(left(0, 5)) + SECOND + "end,1,2\n"
    yield "begun with what a compaction writes", WRITTEN + written(5, 2, 10) + written(4), "release,5\n" + place(5, 2, 10), (
        f"released 5 v2\nplace 5 v3 {DIRECT}\n"), "release,5\n" + place(5, 2, 10), (
        put("1000,1000,990,990,990,990,990,989") + SECOND + "end,1,2\n" + put(left(999)) + "end,2,1\n"
        + put("1000,1000,990,990,990,990,990,989") + "end,3,1\n")
    yield "begun with a link whose bandwidths rise", put("1,9,9,9,9,9,9,9") + SECOND + "end,1,2\n" + held_row(1, 3, 4), "release,1\n", (
        "released 1 v2\n"), "release,1\n", put("1,1,1,1,1,1,1,1") + SECOND + "end,1,2\n" + put("1,1,1,1,1,1,1,1") + "end,2,1\n"


def unfit():
    """Beginnings that are refused, and the line that says so. No row of standard input is read then."""
    for name, rows, line, _ in known_compacts.refused():
        yield f"a beginning {name}", rows, f"{line}\n"
    for name, rows, line in [
        ("with open changes", CIRCUIT, "unended 2"), ("with open changes behind a placement", BASE + place(1) + FIRST, "unended 1"),
        ("that is torn in an end row", f"{BASE}node,1.1.1.1,0\nend,2", "row 5 refused: fields"),
        ("that is torn in a held row", BASE + held_row(1)[:-3], "row 4 refused: route"),
        ("that is torn in a change", BASE + FIRST[:-1], "unended 1"),
        ("that asks for a link it lacks", LEFT, f"left {LINK} refused: absent"),
    ]:
        yield f"a beginning {name}", rows, f"{line}\n"


# ---- files that are full

LACKED = held_row(3, route=ROUND)
FULL = BASE + place(1) + LACKED + offer(2) + "show,1\n" + LEFT + ASK + CIRCUIT + "end,2,2\n" + "release,1\n" + held_row(1) + "end,3,0\n"
STOPPED = "release 1 refused: stopped\nheld 1 refused: stopped\nbatch 3 refused: stopped\n"


def full():
    """Rows, how many bytes each of the two files takes of them, the lines, what is kept, and the journal. Of a row whose batch isn't whole
    in the journal the text is kept."""
    for size in (0, 4):
        yield FULL, size, (
            f"batch 1 refused: keep {size}\nplace 1 refused: stopped\nheld 3 refused: stopped\noffer 2 refused: stopped\n"
            f"show 1 refused: absent\nleft {LINK} refused: absent\nask 9 v0 unknown-from\nbatch 2 refused: stopped\n{STOPPED}"), (
            WRITTEN[:size]), ""
    batch, kept = put(left(999)) + "end,2,1\n", WRITTEN + place(1)
    after = (f"held 3 refused: stopped\noffer 2 refused: stopped\nshow 1 refused: absent\n"
             f"left {LINK} v1 base={FREE} counted={NONE} left={FREE}\nask 9 v1 {DIRECT}\nbatch 2 refused: stopped\n{STOPPED}")
    for size in (0, 10, len(place(1)) - 1):
        yield FULL, len(WRITTEN) + size, f"base 1 v1\nplace 1 refused: keep {size}\n{after}", WRITTEN + place(1)[:size], WRITTEN
    for size in (len(place(1)), len(batch) - 1):
        yield FULL, len(WRITTEN) + size, f"base 1 v1\nplace 1 refused: journal {size}\n{after}", kept, WRITTEN + batch[:size]
    shown = f"left {LINK} v{{0}} base={FREE} counted={left(1, 7, 0)} left={left(999)}\nask 9 v{{0}} {DIRECT}\n"
    size = len(batch) - len(place(1))
    yield FULL, len(WRITTEN + batch), (
        f"base 1 v1\nplace 1 v2 {DIRECT}\nheld 3 refused: keep {size}\noffer 2 refused: stopped\n"
        f"show 1 v2 {SHOWN}\n{shown.format(2)}"
        f"batch 2 refused: stopped\n{STOPPED}"), kept + LACKED[:size], WRITTEN + batch
    yield FULL, len(kept + LACKED), (
        f"base 1 v1\nplace 1 v2 {DIRECT}\nheld 3 v3\noffer 2 v3 {DIRECT}\nshow 1 v3 {SHOWN}\n{shown.format(3)}"
        f"batch 2 refused: keep 0\n{STOPPED}"), kept + LACKED, WRITTEN + batch + "end,3,0\n"
    yield BASE + place(1) + place(2) + "show,2\n" + place(1) + LEFT, len(WRITTEN + batch), (
        f"base 1 v1\nplace 1 v2 {DIRECT}\nplace 2 refused: journal 0\nshow 2 refused: absent\nplace 1 refused: stopped\n"
        f"left {LINK} v2 base={FREE} counted={left(1, 7, 0)} left={left(999)}\n"), kept + place(2), WRITTEN + batch
    yield BASE + place(1) + "release,1\nshow,1\n", len(WRITTEN + batch) + 50, (
        f"base 1 v1\nplace 1 v2 {DIRECT}\nrelease 1 refused: journal 50\nshow 1 v2 {SHOWN}\n"), kept + "release,1\n", (
        WRITTEN + batch + FIRST[:50])
    yield BASE + held_row(1, 0, 2000) + "show,1\n", len(WRITTEN + held_row(1, 0, 2000)), (
        f"base 1 v1\nheld 1 refused: journal {len(held_row(1, 0, 2000))}\nshow 1 refused: absent\n"), WRITTEN + held_row(1, 0, 2000), (
        WRITTEN + (put(NONE) + "end,2,1\n")[:len(held_row(1, 0, 2000))])
    less = put(",".join(["50"] * 8)) + "end,2,1\n"
    size = len(place(1, bandwidth=900) + less) - len(batch)
    yield BASE + place(1, bandwidth=900) + less + LEFT + "node,9.9.9.9,0\n", len(WRITTEN + batch) + size, (
        f"base 1 v1\nplace 1 v2 {DIRECT}\nbatch 2 refused: journal {size}\n"
        f"left {LINK} v2 base={FREE} counted={left(900, 7, 0)} left={left(100)}\nunended 1\n"), (
        WRITTEN + place(1, bandwidth=900) + less), WRITTEN + put(left(100)) + "end,2,1\n" + put(left(0, 7, 50))[:size]


def known():
    """All runs: name, beginning or None, rows, lines, kept rows, journal."""
    yield from ((name, None, *given) for name, *given in rows_of_books())
    yield from begun()
    yield from ((name, begin, BASE + place(1), line, "", "") for name, begin, line in unfit())
