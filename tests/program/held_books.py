"""Streams of `routed book` with the rows held, offer, show and left, whose lines are known: bad rows, refusals, limits, and files of
`--keep` that are full. tests/program/scripts/book has worked ones."""
import contextlib

from program.known_books import ADDRESSES, BASE, CIRCUIT, DIRECT, FREE, MASKS, NUMBERS, ROUTE, address, bad_fields, held_row, offer, place
from reference import books

ROUND = "0a000d01030303030a00170302020202"  # from 1.1.1.1 over 3.3.3.3 to 2.2.2.2
BACK = "0a000c01020202020a000c02010101010a000c0102020202"  # it uses its first link twice
THERE_AND_BACK = "2.2.2.2/32l 1.1.1.1/32l"  # hops of a request whose route does so
LEFT = "left,1.1.1.1,10.0.12.1\n"
NOTHING = ",".join(["0"] * 8)
SHOWN = "from=1.1.1.1 to=2.2.2.2 hold=7 bandwidth=1 links=1 1.1.1.1,10.0.12.1"
UNLIKE_DIGITS = "/:@G`gxXlO _-+.\0\xb2\xff"  # most are beside the digits, or look like them
LONGEST = 2048  # links of a route


# ---- rows that are refused


def bad_routes():
    """Routes from 1.1.1.1 to 2.2.2.2 that can't be read, or don't end there."""
    yield from (ROUTE[:count] for count in range(16))
    yield from (ROUND[:count] for count in range(16, 32))
    yield ROUND + "0"
    yield from (ROUTE[:-1] + digit for digit in UNLIKE_DIGITS)
    yield from (f"{ROUTE[:at]}g{ROUTE[at + 1:]}" for at in range(16))
    yield from (f" {ROUTE}", f"{ROUTE} ", f"0x{ROUTE}", f"0x{ROUTE[2:]}", f"{ROUTE[:8]} {ROUTE[8:]}", f"{ROUND[:16]} {ROUND[16:]}")
    yield from (f"ero:{ROUTE}", "10.0.12.1 2.2.2.2")
    yield from (ROUTE[:8] + end for end in ("02020203", "03020202", "01010101", "00000000", "ffffffff"))
    yield from (ROUTE[8:] + ROUTE[:8], ROUND[16:] + ROUND[:16], BACK[:32], ROUTE + ROUND[:16])


def bad_rows():
    """Rows of the four kinds, each with its refusal."""
    good, offered = (row.rstrip("\n").split(",") for row in (held_row(1), offer(1)))
    yield from bad_fields(good)
    yield from bad_fields(offered)
    for text in bad_routes():
        yield ",".join([*good[:10], text]), "route"
    for field, words in [(2, "number 2"), (3, "address 3"), (4, "address 4"), (5, "number 5"), (6, "number 6"), (7, "mask 7"),
                         (8, "mask 8"), (9, "mask 9"), (10, "hops 1")]:  # the route is looked at last
        yield ",".join([*good[:field - 1], "x", *good[field:10], "x"]), words
    yield ",".join([*good[:4], "8", *good[5:10], ""]), "priority"
    for text in ("", "x", BACK[:32], ROUTE):
        yield ",".join([*good[:3], "1.1.1.1", *good[4:10], text]), "same-ends"
    for fields in (["held"], good[:2], good[:10], [*good, ""], ["held", "x", *good[2:10]], [*good[:10], ROUTE[:8], ROUTE[8:]], ["offer"],
                   offered[:2], offered[:9], [*offered, ""], [*offered, ROUTE]):
        yield ",".join(fields), "fields"
    for row in ("show", "show,1,", "show,1,1", "show,x,", "left", "left,x", "left,1.1.1.1", "left,1.1.1.1,10.0.12.1,",
                "left,1.1.1.1,10.0.12.1,2.2.2.2,10.0.12.2"):
        yield row, "fields"
    for text in [*NUMBERS, str(2 ** 64)]:
        yield f"show,{text}", "number 2"
    for text in ADDRESSES:
        yield f"left,{text},10.0.12.1", "address 2"
        yield f"left,1.1.1.1,{text}", "address 3"
    yield "left,x,x", "address 2"
    for word in ["Held", "HELD", " held", "held ", "holds", "restore", "offers", "Offer", "offered", "shows", "Show", "show ", "shown",
                 "lefts", "Left", " left", "leave"]:
        yield ",".join([word, *good[1:]]), "kind"
        yield f"{word},1", "kind"
        yield f"{word},1.1.1.1,10.0.12.1", "kind"


# ---- streams


def numbered(refused, first):
    """The lines of rows that are refused, the first of which has this number."""
    return "".join(f"row {at} refused: {words}\n" for at, (_, words) in enumerate(refused, first))


def known():
    """Streams with their lines, by the formats' words."""
    bad = list(bad_rows())
    rows = "".join(f"{row}\n" for row, _ in bad)
    yield "bad rows of the four kinds", rows, numbered(bad, 1)
    yield "bad rows of the four kinds among open changes", CIRCUIT + rows + "end,1,2\n" + held_row(1) + "show,1\n", (
        f"{numbered(bad, 3)}base 1 v1\nheld 1 v2\nshow 1 v2 {SHOWN}\n")
    yield "good rows of the four kinds", *good_rows()
    begin, lines = offer(1) + "show,1\n" + LEFT, "show 1 refused: absent\nleft 1.1.1.1,10.0.12.1 refused: absent\n"
    yield "the four kinds in an empty book", begin + held_row(1) + "show,1\n" + LEFT + "release,1\nshow,1\nend,1,0\n", (
        f"offer 1 v0 unknown-from\n{lines}held 1 v1\nshow 1 v1 {SHOWN}\nleft 1.1.1.1,10.0.12.1 refused: absent\nreleased 1 v2\n"
        "show 1 refused: absent\nbase 1 v3\n")
    yield "the four kinds among open changes", CIRCUIT + held_row(1, bandwidth=2000) + offer(2) + LEFT + "end,1,2\n" + (
        offer(2) + offer(2, bandwidth=0)), (
        "held 1 v1\noffer 2 v1 unknown-from\nleft 1.1.1.1,10.0.12.1 refused: absent\nover 1.1.1.1,10.0.12.1 7\nbase 1 v2\n"
        f"offer 2 v2 none\noffer 2 v2 {DIRECT}\n")
    yield "a held row that isn't ended by a line feed", BASE + held_row(1).rstrip("\n"), "base 1 v1\nheld 1 v2\n"
    yield "unended behind a held row", BASE + CIRCUIT + held_row(1) + "show,1\n", f"base 1 v1\nheld 1 v2\nshow 1 v2 {SHOWN}\nunended 2\n"
    for row, words in [(held_row(1, route=BACK), "held 1 refused: twice"), (offer(1, hops=THERE_AND_BACK), "offer 1 refused: twice"),
                       ("show,1\n", "show 1 refused: absent"), ("left,1.1.1.1,10.0.12.2\n", "left 1.1.1.1,10.0.12.2 refused: absent")]:
        yield f"no other refusal than {words}", BASE + row, f"base 1 v1\n{words}\n"
    yield "held rows that use a link twice", *twice()
    yield "a route of 2,048 links in a held row, and one more", *longest()
    yield "the most links of all routes", *most_links()


def good_rows():
    """The ends of ranges, digits of either case, and quotes."""
    most = 2 ** 64 - 1
    shown = "from=1.1.1.1 to=2.2.2.2 hold=0 bandwidth={} links=1 1.1.1.1,10.0.12.1\n"
    over = "".join(f"over 1.1.1.1,10.0.12.1 {priority}\n" for priority in range(8))
    return "".join([
        BASE, held_row(most, 0, most, "0xFFFFFFFE,0xffffffff,0x1", "9.9.9.9/32s 8.0.0.0/8l", route=ROUTE.upper()), f"show,{most}\n",
        held_row(0, 7, 0, hops="ero:000c14010108020202022000", route=ROUND[:16] + ROUND[16:].upper()), "show,0\n",
        f'"held","7",1.1.1.1,2.2.2.2,"0",1,0x0,0x0,0x0,"","{ROUTE}"\n', '"offer","7",1.1.1.1,2.2.2.2,"0",1,0x0,0x0,0x0,""\r',
        '"show","7"\n\n', '"left","1.1.1.1",10.0.12.1\r\n', f'held,8,1.1.1.1,2.2.2.2,7,1,0x0,0x0,0x0,,"{ROUTE}\n"\n', 'show,"7\n"\n',
        'left,1.1.1.1,"10.0.12.1\n"\n', 'show,7']), (
        f"base 1 v1\n{over}held {most} v2\nshow {most} v2 {shown.format(most)}held 0 v3\n"
        "show 0 v3 from=1.1.1.1 to=2.2.2.2 hold=7 bandwidth=0 links=2 1.1.1.1,10.0.13.1 3.3.3.3,10.0.23.3\nheld 7 v4\noffer 7 v4 none\n"
        f"show 7 v4 {shown.format(1)}"
        f"left 1.1.1.1,10.0.12.1 v4 base={FREE} counted={','.join([str(most + 1)] * 8)} left={NOTHING}\n"
        f"row 12 refused: route\nrow 13 refused: number 2\nrow 14 refused: address 3\nshow 7 v4 {shown.format(1)}")


def twice():
    """A link is used twice where its router and its local address are, wherever it leads."""
    twins = "0a000c01030303030a000c01010101010a000c0102020202"  # the first and the last have one key, and lead elsewhere
    apart = "0a000c01030303030a000c0102020202"  # of two routers
    beside = "0a000c01010101010a000c0202020202"  # of one router, at two addresses
    shown = "from=1.1.1.1 to=2.2.2.2 hold=7 bandwidth=1 links=2 1.1.1.1,10.0.12.1"
    return BASE + held_row(1, route=BACK) + held_row(1, route=twins) + "show,1\n" + held_row(1, route=apart) + "show,1\n" + (
        held_row(1, route=BACK) + held_row(2, route=beside) + held_row(3, route=ROUTE[:8] + "01010101" + ROUTE) + "show,2\n"), (
        "base 1 v1\nheld 1 refused: twice\nheld 1 refused: twice\nshow 1 refused: absent\nheld 1 v2\n"
        f"show 1 v2 {shown} 3.3.3.3,10.0.12.1\nheld 1 refused: same-id\nheld 2 v3\nheld 3 refused: twice\n"
        f"show 2 v3 {shown} 1.1.1.1,10.0.12.2\n")


def way(count):
    """A route of so many links over as many routers, and its links' words. Each link has the same local address."""
    routers = [address(3, at) for at in range(1, count)]
    return "".join(map(step, [*routers, "2.2.2.2"])), " ".join(f"{router},10.9.9.9" for router in ["1.1.1.1", *routers])


def step(router):
    return "0a090909" + bytes(map(int, router.split("."))).hex()


def longest():
    """A route at the limit, one past it that uses a link twice, which is too long first, and one at the limit that uses a link twice."""
    (most, keys), (one_less, _) = way(LONGEST), way(LONGEST - 1)
    return BASE + held_row(1, route=most) + "show,1\n" + held_row(2, route=one_less[:-16] + BACK[:32] + step("1.1.1.1") + ROUTE) + (
        held_row(2, route=step("3.0.0.0") * (LONGEST - 1) + step("2.2.2.2"))), (
        f"base 1 v1\nheld 1 v2\nshow 1 v2 from=1.1.1.1 to=2.2.2.2 hold=7 bandwidth=1 links=2048 {keys}\nheld 2 refused: long\n"
        "held 2 refused: twice\n")


def most_links(count=books.MOST_ROUTES_LINKS // LONGEST):
    """So many routes at the limit, which are all that a book may have. None fits after them. Then one ends, and others fit."""
    (route, keys), (one_less, _), (one_more, _) = map(way, (LONGEST, LONGEST - 1, LONGEST + 1))
    lines = "".join(f"held {name} v{name + 2}\n" for name in range(count))
    version = count + 1
    return BASE + "".join(held_row(name, route=route) for name in range(count)) + (
        held_row(count) + place(count) + offer(count) + held_row(count, route=BACK) + held_row(count, route=one_more) + held_row(3)
        + offer(count, bandwidth=2000) + "show,3\nrelease,3\n" + held_row(count) + held_row(count + 1, route=route)
        + held_row(count + 1, route=one_less) + offer(count + 2) + offer(count) + place(count + 2) + place(count)), (
        f"base 1 v1\n{lines}held {count} refused: links\nplace {count} refused: links\noffer {count} refused: links\n"
        f"held {count} refused: twice\nheld {count} refused: long\nheld 3 refused: same-id\noffer {count} v{version} none\n"
        f"show 3 v{version} from=1.1.1.1 to=2.2.2.2 hold=7 bandwidth=1 links=2048 {keys}\nreleased 3 v{version + 1}\n"
        f"held {count} v{version + 2}\nheld {count + 1} refused: links\nheld {count + 1} v{version + 3}\noffer {count + 2} refused: links\n"
        f"offer {count} v{version + 3} {DIRECT}\nplace {count + 2} refused: links\nplace {count} v{version + 4} {DIRECT}\n")


# ---- low limits


@contextlib.contextmanager
def limits(module, **low):
    """The module has these limits meanwhile."""
    kept = {name: getattr(module, name) for name in low}
    vars(module).update(low)
    try:
        yield
    finally:
        vars(module).update(kept)


def lowered(module):
    """The lines of a reference whose limits are low, where held rows and offers meet and pass them."""
    found, other = [], "1.1.1.1,9.9.9.9"
    with limits(module, MOST_PLACEMENTS=2, MOST_PLACED_LINKS=1):
        found.append(module.book(BASE + held_row(1) + held_row(1, route=ROUND) + held_row(2) + held_row(1) + held_row(3) + (
            held_row(3, route=ROUND) + offer(3) + offer(3, ends=other) + offer(2) + offer(2, ends=other) + "release,1\n"
            + held_row(3, route=ROUND) + held_row(3) + held_row(1, route=BACK))))
    with limits(module, MOST_PLACED_LINKS=2, MOST_ROUTES_LINKS=3):
        found.append(module.book(BASE + held_row(1, route=ROUND) + held_row(2, route=ROUND) + held_row(2, route=BACK) + held_row(2) + (
            held_row(3) + offer(3) + offer(2) + offer(3, hops=THERE_AND_BACK) + "release,1\n" + held_row(3, route=ROUND) + held_row(4)
            + held_row(4, route=ROUTE[:8] + "01010101" + ROUTE) + place(4) + place(3) + held_row(4, route=ROUND) + held_row(4))))
    with limits(module, MOST_PLACING_VERSIONS=3, MOST_PLACEMENTS=2, MOST_PLACED_LINKS=1):
        found.append(module.book(BASE + held_row(1) + held_row(2, route=ROUND) + offer(2) + held_row(2) + held_row(2) + (
            held_row(3, route=ROUND) + offer(2) + offer(3) + "show,2\nshow,3\n" + LEFT + "end,2,0\n" + held_row(3) + "release,1\n"
            + offer(9))))
    with limits(module, MOST_PLACED_LINKS=2):
        found.append(module.book(BASE + offer(1, hops=THERE_AND_BACK) + held_row(1, route=BACK) + held_row(1, route=ROUND)))
    return found


LOWERED = [
    (2, ["base 1 v1", "held 1 v2", "held 1 refused: same-id", "held 2 v3", "held 1 refused: same-id", "held 3 refused: full",
         "held 3 refused: full", "offer 3 refused: full", "offer 3 refused: full", f"offer 2 v3 {DIRECT}", "offer 2 v3 unknown-to",
         "released 1 v4", "held 3 refused: long", "held 3 v5", "held 1 refused: full"]),
    (2, ["base 1 v1", "held 1 v2", "held 2 refused: links", "held 2 refused: long", "held 2 v3", "held 3 refused: links",
         "offer 3 refused: links", f"offer 2 v3 {DIRECT}", "offer 3 refused: twice", "released 1 v4", "held 3 v5", "held 4 refused: links",
         "held 4 refused: twice", "place 4 refused: links", f"place 3 v6 {DIRECT}", "held 4 refused: links", "held 4 v7"]),
    (2, ["base 1 v1", "held 1 v2", "held 2 refused: long", f"offer 2 v2 {DIRECT}", "held 2 v3", "held 2 refused: exhausted",
         "held 3 refused: exhausted", "offer 2 refused: exhausted", "offer 3 refused: exhausted", f"show 2 v3 {SHOWN}",
         "show 3 refused: absent",
         f"left 1.1.1.1,10.0.12.1 v3 base={FREE} counted=0,0,0,0,0,0,0,2 left=1000,1000,1000,1000,1000,1000,1000,998", "base 2 v4",
         "held 3 refused: exhausted", "release 1 refused: exhausted", "offer 9 refused: exhausted"]),
    (2, ["base 1 v1", "offer 1 refused: twice", "held 1 refused: long", "held 1 v2"]),
]


# ---- files of --keep that are full

KEPT_BASE = BASE.replace("0x1", "0x00000001")  # as it is in a file
FIRST = held_row(1, bandwidth=2000)
CUT = BASE + FIRST + offer(2) + place(2) + held_row(2) + "release,1\n" + held_row(1) + offer(1) + "show,1\nshow,2\n" + LEFT + (
    f"ask,9,1.1.1.1,2.2.2.2,7,0,{MASKS},\n" + CIRCUIT + "end,2,2\n" + held_row(3, route="x") + held_row(3, route=BACK) + "show,3\n")


def cuts():
    """How many bytes a file of `--keep` takes of these rows, the lines, and what is kept. Once it is full, rows that could change the
    book are refused, and offers, too. What only looks at the book is answered."""
    stopped = "".join(f"{subject} refused: stopped\n" for subject in ("release 1", "held 1", "offer 1"))
    last = "batch 2 refused: stopped\nrow 18 refused: route\nheld 3 refused: stopped\nshow 3 refused: absent\n"
    yield 4, (f"batch 1 refused: keep 4\nheld 1 refused: stopped\noffer 2 refused: stopped\nplace 2 refused: stopped\n"
              f"held 2 refused: stopped\n{stopped}show 1 refused: absent\nshow 2 refused: absent\n"
              f"left 1.1.1.1,10.0.12.1 refused: absent\nask 9 v0 unknown-from\n{last}"), KEPT_BASE[:4]
    for size in (0, 5, len(FIRST) - 1):
        kept = KEPT_BASE + FIRST[:size]
        yield len(kept), (f"base 1 v1\nheld 1 refused: keep {size}\noffer 2 refused: stopped\nplace 2 refused: stopped\n"
                          f"held 2 refused: stopped\n{stopped}show 1 refused: absent\nshow 2 refused: absent\n"
                          f"left 1.1.1.1,10.0.12.1 v1 base={FREE} counted={NOTHING} left={FREE}\nask 9 v1 {DIRECT}\n{last}"), kept
    kept = KEPT_BASE + FIRST
    yield len(kept), (f"base 1 v1\nover 1.1.1.1,10.0.12.1 7\nheld 1 v2\noffer 2 v2 none\nplace 2 v2 none\nheld 2 refused: keep 0\n{stopped}"
                      "show 1 v2 from=1.1.1.1 to=2.2.2.2 hold=7 bandwidth=2000 links=1 1.1.1.1,10.0.12.1\nshow 2 refused: absent\n"
                      f"left 1.1.1.1,10.0.12.1 v2 base={FREE} counted=0,0,0,0,0,0,0,2000 left=1000,1000,1000,1000,1000,1000,1000,0\n"
                      f"ask 9 v2 {DIRECT}\n{last}"), kept


def cut_short(module):
    """What a reference makes of each."""
    found = []
    for room, _, _ in cuts():
        status, steps = module.steps(CUT, room)
        found.append((status, "".join(f"{line}\n" for lines, _ in steps for line in lines), "".join(text for _, text in steps)))
    return found


CUT_SHORT = [(2, lines, kept) for _, lines, kept in cuts()]
