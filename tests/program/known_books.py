"""Streams of `routed book` whose lines are known: worked ones, refusals, and limits."""
import os

from reference import books

HERE = os.path.dirname(os.path.abspath(__file__))
SCRIPTS = os.path.join(HERE, "scripts/book")
FREE = ",".join(["1000"] * 8)
MASKS = "0x0,0x0,0x0"
ENDS = "1.1.1.1,10.0.12.1,2.2.2.2,10.0.12.2", "2.2.2.2,10.0.12.2,1.1.1.1,10.0.12.1"
CIRCUIT = "".join(f"put,{ends},10,0x1,{FREE}\n" for ends in ENDS)
BASE = CIRCUIT + "end,1,2\n"
DIRECT = "route cost=10 hops=1 again=no ero=000c140101080a000c022000"
ROUTE = "0a000c0102020202"  # of DIRECT, in a held row


def place(name, hold=7, bandwidth=1, masks=MASKS, hops="", ends="1.1.1.1,2.2.2.2"):
    return f"place,{name},{ends},{hold},{bandwidth},{masks},{hops}\n"


def offer(*given, **more):
    return place(*given, **more).replace("place", "offer", 1)


def held_row(*given, route=ROUTE, **more):
    return place(*given, **more).replace("place", "held", 1).rstrip("\n") + f",{route}\n"


class Reference:
    """The reference, or a wrong book made of it, as a program."""

    def __init__(self, module=books):
        self.module = module

    def run(self, words, rows):
        assert words == ["book"]
        status, lines = self.module.book(rows if isinstance(rows, str) else rows.decode("latin-1"))
        return status, "".join(f"{line}\n" for line in lines).encode(), b""


def status_of(lines):
    """The status that the formats give a run with these lines."""
    return 2 if " refused: " in lines or lines.splitlines()[-1:] and lines.splitlines()[-1].startswith(("unended ", "too many rows")) else 0


def held(path):
    with open(path, "rb") as file:
        return file.read()


def worked():
    """The streams of tests/program/scripts/book, each with the lines of the file beside it."""
    for name in sorted(os.listdir(SCRIPTS)):
        if name.endswith(".rows"):
            yield name, held(os.path.join(SCRIPTS, name)), held(os.path.join(SCRIPTS, name[:-5] + ".out")).decode()


NUMBERS = ["", "00", "01", "-1", "+1", " 1", "1 ", "1.0", "0x1", "a", "1_0"]
ADDRESSES = ["", "1", "1.1.1", "1.1.1.1.1", "1.1.1.256", "01.1.1.1", " 1.1.1.1", "1.1.1.1/32", "1.1.1.-1", "a.1.1.1"]
BAD_MASKS = ["", "0", "1", "x1", "0x", "0X1", "0xg", "0x100000000", "0x000000001", " 0x1", "-0x1"]
BAD_HOPS = [("x", "hops 1"), ("1.1.1.1/32", "hops 1"), ("1.1.1.1/33s", "hops 1"), ("1.1.1.1/32s ", "hops 2"),
            ("1.1.1.1/32s  1.1.1.1/32l", "hops 2"),
            (" ".join(["1.1.1.1/32l"] * 8), "hops count"), ("ero:0", "hops hex"), ("ero:", "hops ero short"),
            ("ero:00041401", "hops ero empty"),
            ("ero:00051401", "hops ero length"), ("ero:000c13010108010101012000", "hops ero class"),
            ("ero:000c14010208010101012000", "hops ero unsupported"),
            ("ero:000c14010107010101012000", "hops ero sublength"), ("ero:000c14010108010101012100", "hops ero prefix-length"),
            ("ero:00441401" + "0108010101012000" * 8, "hops ero count")]


def bad_fields(good):
    """Rows that have the fields of a request, of which one or two are bad, each with its refusal, from the fields of a good one."""
    def turned(field, text):
        return ",".join([*good[:field - 1], text, *good[field:]])

    for field, texts, words in [(2, [*NUMBERS, str(2 ** 64)], "number 2"), (3, ADDRESSES, "address 3"), (4, ADDRESSES, "address 4"),
                                (5, [*NUMBERS, str(2 ** 32)], "number 5"), (5, ["8", "9", str(2 ** 32 - 1)], "priority"),
                                (6, [*NUMBERS, str(2 ** 64)], "number 6"), *((field, BAD_MASKS, f"mask {field}") for field in (7, 8, 9))]:
        for text in texts:
            yield turned(field, text), words
    for text, words in BAD_HOPS:
        yield turned(10, text), words
    for field in range(2, 10):  # of two bad fields the first is named
        if field < 9:
            yield ",".join([*good[:field - 1], "x", "x",
                            *good[field + 1:]]), f"{'address' if field in (3, 4) else 'mask' if field > 6 else 'number'} {field}"
    yield ",".join([*good[:4], "8", "x", *good[6:]]), "priority"
    yield ",".join([*good[:8], "x", "x", *good[10:]]), "mask 9"
    yield turned(4, "1.1.1.1"), "same-ends"
    yield ",".join([*good[:3], "1.1.1.1", *good[4:9], "x", *good[10:]]), "hops 1"  # ends are compared last


def bad_rows():
    """Rows that are no place and no release, each with its refusal."""
    good = place(1).rstrip("\n").split(",")
    yield from bad_fields(good)
    for row in ["place", "place,1", ",".join(good[:9]), ",".join([*good, ""]), ",".join(good[:9] + ["x", "y"]), "release", "release,1,",
                "release,1,1", "release,x,"]:
        yield row, "fields"
    for text in [*NUMBERS, str(2 ** 64)]:
        yield f"release,{text}", "number 2"
    for word in ["places", "Place", "PLACE", " place", "place ", "releases", "Release", " release", "released", "hold", "base", "lost",
                 "over", "version", "#"]:
        yield ",".join([word, *good[1:]]), "kind"
        yield f"{word},1", "kind"


def known():
    """Streams with their lines, by the formats' words: refusals, ends of streams, and what no one means to send."""
    bad = list(bad_rows())
    rows = "".join(f"{row}\n" for row, _ in bad)
    lines = "".join(f"row {at} refused: {words}\n" for at, (_, words) in enumerate(bad, 1))
    yield "bad rows", rows, lines
    moved = [lines.replace(f"row {at} ", f"row {at + 2} ")
             for lines, at in ((f"row {at} refused: {words}\n", at) for at, (_, words) in enumerate(bad, 1))]
    yield "bad rows among open changes", CIRCUIT + rows + "end,1,2\n" + place(1), "".join(moved) + f"base 1 v1\nplace 1 v2 {DIRECT}\n"
    yield "good rows beside them", BASE + "".join(
        [place(2 ** 64 - 1, 0, 0), f"release,{2 ** 64 - 1}\n", place(0, 7, 1000, "0xFFFFFFFE,0xffffffff,0x1", "2.2.2.2/32s"), "release,0\n",
         place(7, 7, 0, hops="ero:000c14010108020202022000"), '"place","7",1.1.1.1,2.2.2.2,"0",1,0x0,0x0,0x0,""\n', '"release",7']), (
        f"base 1 v1\nplace {2 ** 64 - 1} v2 {DIRECT}\nreleased {2 ** 64 - 1} v3\nplace 0 v4 {DIRECT}\nreleased 0 v5\nplace 7 v6 {DIRECT}\n"
        f"place 7 v7 {DIRECT}\nreleased 7 v8\n")
    yield "nothing", "", ""
    yield "carriage returns and empty lines", BASE.replace("\n",
                                                           "\r\n\r\n") + place(1).replace("\n", "\r"), f"base 1 v1\nplace 1 v2 {DIRECT}\n"
    yield "a byte order mark", "\xef\xbb\xbf" + BASE, "base 1 v1\n"
    yield "bytes that are no text", "\xff\xfe\n\0\nrelease,\xb9\n", "row 1 refused: kind\nrow 2 refused: kind\nrow 3 refused: number 2\n"
    yield "a quote that never closes", BASE + 'release,"1\n' + place(1), "base 1 v1\nrow 4 refused: number 2\n"
    yield "fields of a megabyte", f"release,{'9' * 1_000_000}\n" + place(
        "1" * 1_000_000), "row 1 refused: number 2\nrow 2 refused: number 2\n"
    yield "unended", BASE + CIRCUIT + "release,1\n", "base 1 v1\nrelease 1 refused: absent\nunended 2\n"
    yield "unended alone", "drop,1.1.1.1,10.0.0.1\n", "unended 1\n"
    yield "the most rows", "drop,1.1.1.1,10.0.0.1\n" * 1_000_000, "unended 1000000\n"
    yield "too many rows", "drop,1.1.1.1,10.0.0.1\n" * 1_000_001, "too many rows\n"
    behind = BASE + "foo\n" + "drop,1.1.1.1,10.0.0.1\n" * 999_997
    yield "too many rows behind a batch", behind, "base 1 v1\nrow 4 refused: kind\ntoo many rows\n"
    yield "a count of 999,999", "drop,1.1.1.1,10.0.0.1\n" * 999_999 + "end,1,5\n", "batch 1 refused: counted 999999\n"
    yield "a route of 2,048 links, and one more", *longest()
    yield "the most placings", *placings()
    yield from known_batches()


def placings():
    """Placings and releases up to version 900,000, and rows after it, of which only the base's batch is accepted."""
    pairs = 449_999
    lines = "".join(f"place 1 v{2 * at} {DIRECT}\nreleased 1 v{2 * at + 1}\n" for at in range(1, pairs + 1))
    after = (place(2) + "release,1\n" + held_row(1) + held_row(2) + offer(1) + offer(2) + "show,1\nshow,2\nleft,2.2.2.2,10.0.12.2\n"
             + "end,2,0\n" + held_row(2) + offer(2) + "show,1\n")
    shown = "from=1.1.1.1 to=2.2.2.2 hold=7 bandwidth=1 links=1 1.1.1.1,10.0.12.1\n"
    return BASE + (place(1) + "release,1\n") * pairs + place(1) + after, (
        f"base 1 v1\n{lines}place 1 v900000 {DIRECT}\nplace 2 refused: exhausted\nrelease 1 refused: exhausted\n"
        f"held 1 refused: exhausted\nheld 2 refused: exhausted\noffer 1 refused: exhausted\noffer 2 refused: exhausted\n"
        f"show 1 v900000 {shown}show 2 refused: absent\nleft 2.2.2.2,10.0.12.2 v900000 base={FREE} counted=0,0,0,0,0,0,0,0 left={FREE}\n"
        f"base 2 v900001\nheld 2 refused: exhausted\noffer 2 refused: exhausted\nshow 1 v900001 {shown}")


def longest():
    """A line of the most routers, and circuits beside it that are too expensive for any route unless hops ask for them. A route goes to the
    end of the line, comes back, and takes two or three of these circuits."""
    rows, count = [], 1024

    def circuit(near, far, local, metric):
        ends = [(address(1, near), address(local, near)), (address(1, far), address(local + 1, far))]
        for (start, mine), (end, other) in (ends, ends[::-1]):
            rows.append(f"put,{start},{mine},{end},{other},{metric},0x1,{FREE}\n")

    for near in range(count - 1):
        circuit(near, near + 1, 11, 1)
    for near in (0, 2, 4):
        circuit(near, near + 2, 21, 100_000)
    rows.append(f"end,1,{len(rows)}\n")
    passed = [(11, near) for near in range(count - 1)]
    remotes = [*(address(12, near + 1) for _, near in passed), *(address(11, near) for _, near in passed[::-1])]
    there = f"{address(1, count - 1)}/32l {address(1, 0)}/32l {address(1, 2)}/32s {address(1, 4)}/32s"
    ero = "".join(f"0108{''.join(f'{int(part):02x}' for part in it.split('.'))}2000" for it in [*remotes, address(22, 2), address(22, 4)])
    ends = [f"{address(1, 0)},{address(1, at)}" for at in (4, 6)]
    placed = "".join(row(1, ends=ends[0], hops=there) + row(1, ends=ends[1], hops=f"{there} {address(1, 6)}/32s") for row in (offer, place))
    cost, length = 2 * (count - 1) + 2 * 100_000, len(ero) // 2 + 4
    told = f"route cost={cost} hops=2048 again=yes ero={length:04x}1401{ero}"
    return "".join(rows) + placed + "release,1\n", (
        f"base 1 v1\noffer 1 v1 {told}\noffer 1 refused: long\nplace 1 v2 {told}\nplace 1 refused: long\nreleased 1 v3\n")


def address(top, number):
    return f"{top}.{number >> 16 & 255}.{number >> 8 & 255}.{number & 255}"


def known_batches():
    """Batches at the limits, and one past them, after which a placement still stands."""
    def put(start, local, end, remote="10.0.12.9"):
        return f"put,{start},{local},{end},{remote},10,0x1,{FREE}\n"

    def ended(rows, number):
        return "".join(rows) + f"end,{number},{len(rows)}\n"

    links = [put("1.1.1.1", address(11, at), "2.2.2.2") for at in range(16_383)]
    begin, line = BASE + place(1), f"base 1 v1\nplace 1 v2 {DIRECT}\n"
    last = "release,1\n"
    yield "4,097 changes", begin + ended(links[:4097], 2) + last, line + "batch 2 refused: long\nreleased 1 v3\n"
    yield "4,096 changes", begin + ended(links[:4096], 2) + last, line + "base 2 v3\nreleased 1 v4\n"
    many = [ended(links[at * 4096:at * 4096 + 4096], at + 2) for at in range(4)]
    yield "16,385 links", begin + "".join(many) + last, line + "base 2 v3\nbase 3 v4\nbase 4 v5\nbatch 5 refused: full\nreleased 1 v6\n"
    pairs = [put(address(1, 2 * at + 2), "10.0.0.1", address(1, 2 * at + 3)) for at in range(512)]
    yield "1,026 routers", begin + ended(pairs, 2) + ended(pairs[:511],
                                                           2) + last, line + "batch 2 refused: routers\nbase 2 v3\nreleased 1 v4\n"
    marks = [f"node,{address(3, at)},0\n" for at in range(1025)]
    yield "1,025 marks", begin + ended(marks, 2) + ended(marks[:1024],
                                                         2) + last, line + "batch 2 refused: marks\nbase 2 v3\nreleased 1 v4\n"


def lowered(module):
    """The lines of a reference whose limits are low, where they are met and passed."""
    kept = module.MOST_PLACEMENTS, module.MOST_ROUTES_LINKS, module.MOST_VERSIONS, module.MOST_PLACED_LINKS
    placing = module.MOST_PLACING_VERSIONS
    found = []
    try:
        module.MOST_PLACEMENTS = 2
        found.append(module.book(BASE + place(1) + place(2) + place(3) + place(3, ends="1.1.1.1,9.9.9.9") + place(2, 0, 5) + "release,1\n"
                                 + place(3) + place(2) + place(1)))
        module.MOST_PLACEMENTS, module.MOST_ROUTES_LINKS = 9, 3
        line = "".join(f"put,{ends},10,0x1,{FREE}\n" for ends in (*ENDS, "2.2.2.2,10.0.23.2,3.3.3.3,10.0.23.3",
                                                                  "3.3.3.3,10.0.23.3,2.2.2.2,10.0.23.2"))
        far = "1.1.1.1,3.3.3.3"
        found.append(module.book(line + "end,1,4\n" + place(1, ends=far) + place(2, ends=far) + place(2) + place(3) + place(1, ends=far)
                                 + place(3, bandwidth=0, hops="3.3.3.3/32l 1.1.1.1/32l") + place(2, ends=far) + place(4, bandwidth=2000)
                                 + "release,2\n" + place(3)))
        module.MOST_ROUTES_LINKS, module.MOST_PLACING_VERSIONS, module.MOST_VERSIONS = 9, 3, 4
        found.append(module.book(BASE + place(1) + "release,2\n" + place(2) + place(3) + place(3, ends="8.8.8.8,9.9.9.9")
                                 + f"release,1\nrelease,9\nend,2,0\nend,1,0\nask,1,1.1.1.1,2.2.2.2,7,0,{MASKS},\n"))
        module.MOST_ROUTES_LINKS, module.MOST_VERSIONS, module.MOST_PLACED_LINKS = 1, 9, 1
        module.MOST_PLACING_VERSIONS = 9
        found.append(module.book(line + "end,1,4\n" + place(1, ends=far) + place(1) + place(2) + place(1, ends=far)
                                 + place(3, bandwidth=0, hops="3.3.3.3/32l 1.1.1.1/32l")))
    finally:
        module.MOST_PLACEMENTS, module.MOST_ROUTES_LINKS, module.MOST_VERSIONS, module.MOST_PLACED_LINKS = kept
        module.MOST_PLACING_VERSIONS = placing
    return found


TWO = "route cost=20 hops=2 again=no ero=0014140101080a000c02200001080a0017032000"
LOWERED = [
    (2, ["base 1 v1", f"place 1 v2 {DIRECT}", f"place 2 v3 {DIRECT}", "place 3 refused: full", "place 3 refused: full",
         f"place 2 v4 {DIRECT}", "released 1 v5",
         f"place 3 v6 {DIRECT}", f"place 2 v7 {DIRECT}", "place 1 refused: full"]),
    (2, ["base 1 v1", f"place 1 v2 {TWO}", "place 2 refused: links", f"place 2 v3 {DIRECT}", "place 3 refused: links", f"place 1 v4 {TWO}",
         "place 3 refused: twice", "place 2 refused: links", "place 4 v4 none", "released 2 v5", f"place 3 v6 {DIRECT}"]),
    (2, ["base 1 v1", f"place 1 v2 {DIRECT}", "release 2 refused: absent", f"place 2 v3 {DIRECT}", "place 3 refused: exhausted",
         "place 3 refused: exhausted",
         "release 1 refused: exhausted", "release 9 refused: exhausted", "base 2 v4", "batch 1 refused: exhausted", f"ask 1 v4 {DIRECT}"]),
    (2, ["base 1 v1", "place 1 refused: long", f"place 1 v2 {DIRECT}", "place 2 refused: links", "place 1 refused: long",
         "place 3 refused: twice"]),
]
