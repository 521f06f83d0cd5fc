"""Tests of routed-tools draw, draw-failures and draw-circuit: what a picture shows, and where routers are."""
import itertools
import math
import os
import re
import resource
import tempfile
import xml.etree.ElementTree as xml

from checks import TOP
from tools.drawing import SVG, begin_of, big_network, classes, draw, draw_failures, hovers, least_distance, link, names, notes, places_in
from tools.drawing import shapes
from tools.drawn_circuits import circuit_replies, circuit_steps, not_drawn
from tools.labels import apart, placer
from tools.ring import BEFORE, OF_CIRCUITS

LINE = "".join(link(*one, *other) for one, other in (
    (("1.1.1.1", "10.0.0.1"), ("2.2.2.2", "10.0.0.2")), (("2.2.2.2", "10.0.0.2"), ("1.1.1.1", "10.0.0.1")),
    (("2.2.2.2", "10.0.1.1"), ("3.3.3.3", "10.0.1.2")), (("3.3.3.3", "10.0.1.2"), ("2.2.2.2", "10.0.1.1"))))
PAIR = link("1.1.1.1", "10.0.0.1", "2.2.2.2", "10.0.0.2") + link("2.2.2.2", "10.0.0.2", "1.1.1.1", "10.0.0.1")
ALL = "give all that sweep prints of single circuits"
REPLY = "ask 7 v1 route cost=10 hops=1 again=no ero=000c140101080a0000022000\n"


def circuits(_, checks):
    _, picture, _ = draw(PAIR + "end,1,2\n")
    checks.same("both directions are one line", (len(shapes(picture, "circuit")), len(shapes(picture, "one-way"))), (1, 0))
    _, picture, _ = draw(PAIR + "end,1,2\ndrop,2.2.2.2,10.0.0.2\nend,2,1\n")
    checks.same("a link of one way has an arrow", classes(picture, "circuit", "one-way", "arrow"), ["one-way", "arrow", "arrow"])
    checks.true("a link of one way is in the legend", "one direction alone, or in other groups than its reverse" in notes(picture),
                notes(picture))
    checks.same("what is said of a link of one way", hovers(picture, "one-way"), [
        "1.1.1.1 to 2.2.2.2, one way\n10.0.0.1 to 10.0.0.2: metric 10, group 0x1, 1,000 bytes per second unreserved at priority 0"])
    _, picture, _ = draw(PAIR + "end,1,2\ndrop,2.2.2.2,10.0.0.2\nend,2,1\n", "--version", "1")
    checks.same("an older version", len(shapes(picture, "circuit")), 1)
    _, picture, _ = draw(PAIR + "end,1,2\ndrop,2.2.2.2,10.0.0.2\n")
    checks.same("changes behind the last end row", len(shapes(picture, "circuit")), 1)
    _, picture, _ = draw(link("2.2.2.2", "10.0.0.2", "1.1.1.1", "10.0.0.1") + "end,1,1\n")
    checks.same("a link of one way begins at its router", begin_of(shapes(picture, "one-way")[0]), places_in(picture)["2.2.2.2"])
    row = "1.1.1.1 0 0\n2.2.2.2 10 0\n3.3.3.3 20 0\n"
    _, picture, _ = draw(LINE + PAIR.replace("10.0.0", "10.0.2").replace("2.2.2.2", "3.3.3.3") + "end,1,6\n", places=row)
    numbers = [[float(it) for it in re.findall("-?[0-9.]+", line.get("d"))] for line in shapes(picture, "circuit")]
    middles = [(it[1] + 2 * it[3] + it[5]) / 4 - it[1] for it in numbers]
    checks.true("a circuit goes round a third router", sorted(abs(it) > 13 for it in middles) == [False, False, True], middles)
    twice = PAIR + PAIR.replace("10.0.0", "10.0.1")
    _, picture, _ = draw(twice + "end,1,4\n")
    checks.same("two circuits of one pair are apart", len({line.get("d") for line in shapes(picture, "circuit")}), 2)
    _, picture, _ = draw(link("1.1.1.1", "10.0.0.1", "2.2.2.2", "10.0.0.2", free=",".join(["0"] * 8)) + "end,1,1\n")
    checks.true("nothing unreserved is dotted", "stroke-dasharray:1 5" in shapes(picture, "one-way")[0].get("style"))


def routes(_, checks):
    _, picture, _ = draw(PAIR + "end,1,2\n", "--ask", "7", replies=REPLY)
    checks.same("a route is on top of its circuit, and its ends are marked, there and in the legend",
                classes(picture, "circuit", "route", "from", "to"),
                ["circuit", "route", "from", "to", "from", "to"])
    text = "ask 7 v1: 1.1.1.1 to 2.2.2.2, cost 10, 1 link"
    checks.same("its cost and its ends are in the legend", [note for note in notes(picture) if note[0] != "g"],
                ["widest: 1,000 bytes per second unreserved at priority 0; dotted: none", text, "ring: where a route begins",
                 "diamond: where it ends"])
    checks.same("what is said of a route", hovers(picture, "route"), [text])
    at, begins = places_in(picture), next(it for it in xml.fromstring(picture).iter(SVG + "circle") if it.get("class") == "from")
    checks.same("the ring is round the head-end", (float(begins.get("cx")), float(begins.get("cy"))), at["1.1.1.1"])
    ends = shapes(picture, "to")[0].get("d").split("l")[0]
    checks.same("the diamond is round the tail-end", ends, f"M{at['2.2.2.2'][0]:.1f} {at['2.2.2.2'][1] - 14:.1f}")
    several(checks)
    of_books(checks)
    for name, replies, ask in (("no such reply", REPLY, "8"), ("no route in it", "ask 7 v1 none\n", "7"),
                               ("a route of another network", REPLY.replace("0a000002", "0a000003"), "7"),
                               ("another cost", REPLY.replace("cost=10", "cost=11"), "7")):
        status, picture, said = draw(PAIR + "end,1,2\n", "--ask", ask, replies=replies)
        checks.true(f"{name} is refused", status == 1 and picture == "" and said.startswith("draw: "), said)
    status, picture, said = draw(PAIR + "end,1,2\ndrop,2.2.2.2,10.0.0.2\nend,2,1\n", "--ask", "7", replies=REPLY)
    checks.true("a route over a link of one way is refused", status == 1 and picture == "" and said.startswith("draw: "), said)


def of_books(checks):
    """Of the lines of a book the last route that was placed is drawn."""
    placed = REPLY.replace("ask 7 v1", "place 7 v2")
    for name, more in (("alone", ""), ("before it found none", "place 7 v2 none\nplace 7 refused: twice\n"),
                       ("and lost", "lost 7\nbase 2 v3\nover 1.1.1.1,10.0.0.1 7\n")):
        status, picture, said = draw(PAIR + "end,1,2\n", "--ask", "7", replies=f"base 1 v1\n{placed}{more}")
        checks.same(f"a route of a book {name}", (status, said, hovers(picture, "route")),
                    (0, "", ["place 7 v2: 1.1.1.1 to 2.2.2.2, cost 10, 1 link"]))
    again = placed.replace("v2", "v1").replace("0a000002", "0a000009") + placed
    checks.same("the last route of a book", hovers(draw(PAIR + "end,1,2\n", "--ask", "7", replies=again)[1], "route"),
                ["place 7 v2: 1.1.1.1 to 2.2.2.2, cost 10, 1 link"])
    status, picture, said = draw(PAIR + "end,1,2\n", "--ask", "7", replies="place 7 v1 none\n")
    checks.same("a book that placed nothing", (status, picture, said), (1, "", "draw: no reply to 7\n"))


def pairs(_, checks):
    """Both ways of a pair, and what each way has where there is no pair."""
    rows = LINE + PAIR.replace("10.0.0", "10.0.2").replace("2.2.2.2", "3.3.3.3") + "end,1,6\n"
    one, two = "cost1=10 ero1=000c140101080a0002022000", "cost2=20 ero2=0014140101080a000002200001080a0001022000"
    pair = f"pair 7 v1 pair cost=30 hops=3 {one} {two}\n"

    def style_of(route):
        return re.findall("stroke:([^;]*);.*stroke-dasharray:([^;]*)", route.get("style"))[0]

    status, picture, said = draw(rows, "--ask", "7", replies=pair)
    texts = ["pair 7 v1, first way: 1.1.1.1 to 3.3.3.3, cost 10, 1 link", "pair 7 v1, second way: 1.1.1.1 to 3.3.3.3, cost 20, 2 links"]
    checks.same("both ways of a pair", (status, said, hovers(picture, "route")), (0, "", texts))
    checks.same("both ways are in the legend", [note for note in notes(picture) if note.startswith("pair")], texts)
    (color, dash), other = map(style_of, shapes(picture, "route"))
    checks.same("the second way has the color of the first and dashes", (dash, other), ("none", (color, "11 4")))
    replies = pair + "".join(pair.replace("pair 7", f"pair {at}") for at in (8, 9)) + "except 1 v1 none\n" + "".join(
        f"{word} {at} v1 route cost=10 hops=1 again=no ero=000c140101080a0000022000\n" for at, word in enumerate(("ask", "except"), 1))
    _, picture, _ = draw(rows, *(word for at in "1728" for word in ("--ask", at)), replies=replies)
    drawn = [(text.split(":")[0], *style_of(route)) for text, route in zip(hovers(picture, "route"), shapes(picture, "route"))]
    colors = [name for _, name, _ in drawn]
    checks.same("pairs beside other replies", [name for name, *_ in drawn], [
        "ask 1 v1", "pair 7 v1, first way", "pair 7 v1, second way", "except 2 v1", "pair 8 v1, first way", "pair 8 v1, second way"])
    checks.true("the ways of a pair have a color of their own", (colors[1], colors[4]) == (colors[2], colors[5])
                and len({colors[0], colors[1], colors[4]}) == 3 and len(set(drawn)) == 6 and colors[3] == colors[0], drawn)
    checks.same("three pairs", len(shapes(draw(rows, "--ask", "7", "--ask", "8", "--ask", "9", replies=replies)[1], "route")), 6)
    words = [word for at in "7892" for word in ("--ask", at)]
    checks.same("three pairs and a route are refused", draw(rows, *words, replies=replies), (1, "", "draw: at most 6 routes\n"))
    of_no_pair(checks, rows)
    for name, line, why in (("no way", "none", "no route in the reply"), ("an unknown head-end", "unknown-from", "no route in the reply"),
                            ("a link that isn't there", "each by 1.1.1.1,10.0.0.2", "the network has no such link"),
                            ("a router that isn't there", "each through 4.4.4.4", "the network has no such router"),
                            ("another way", pair[10:-1].replace("0a000202", "0a000203"), "the network has no such route"),
                            ("another cost", pair[10:-1].replace("cost2=20", "cost2=21"), "the network has no such route"),
                            ("two ends", pair[10:-1].replace("0a000202", "0a000002"), "the network has no such pair")):
        status, picture, said = draw(rows, "--ask", "7", replies=f"pair 7 v1 {line}\n")
        checks.same(f"a pair of {name} is refused", (status, picture, said), (1, "", f"draw: {why}: pair 7 v1 {line}\n"))


def of_no_pair(checks, rows):
    """A circuit that each way has is between two lines, and a router that each way passes is in a square."""
    reasons = "pair 7 v1 each by 2.2.2.2,10.0.1.1\npair 8 v1 each through 2.2.2.2\n"
    status, picture, said = draw(rows, "--ask", "7", "--ask", "8", replies=reasons)
    texts = ["pair 7 v1: no pair, each way has the circuit 2.2.2.2 – 3.3.3.3", "pair 8 v1: no pair, each way passes 2.2.2.2"]
    checks.same("what each way has", (status, said, hovers(picture, "each"), notes(picture)[-2:]), (0, "", texts[:1], texts))
    checks.same("marks of it, there and in the legend", classes(picture, "each", "circuit", "through", "route"),
                ["each", *["circuit"] * 3, "through", "through"])
    marked = next(line for line in shapes(picture, "circuit") if line.get("d") == shapes(picture, "each")[0].get("d"))
    checks.true("the two lines are along their circuit", marked[0].text.startswith("2.2.2.2 – 3.3.3.3\n"), marked[0].text)
    x, y = places_in(picture)["2.2.2.2"]
    checks.same("the square is round its router", begin_of(shapes(picture, "through")[0]), (round(x - 10, 1), round(y - 10, 1)))
    back = draw(rows, "--ask", "7", replies=reasons.replace("2.2.2.2,10.0.1.1", "3.3.3.3,10.0.1.2"))[1]
    checks.same("the other direction of the circuit", hovers(back, "each"),
                [texts[0].replace("2.2.2.2 – 3.3.3.3", "3.3.3.3 – 2.2.2.2")])
    _, part, _ = draw(LINE + "end,1,4\n", "--ask", "7", "--around", "1.1.1.1", "--hops", "1", replies=reasons)
    checks.same("a circuit that isn't drawn", (classes(part, "each"), notes(part)[-1]), ([], texts[0]))


def several(checks):
    """Six routes over one circuit, in both directions: none covers another, and no two look alike."""
    back = REPLY.replace("0a000002", "0a000001")
    replies = "".join(text.replace("ask 7", f"ask {at}") for at, text in enumerate((REPLY, REPLY, back, REPLY, back, REPLY), 1))
    asks = list(itertools.chain.from_iterable(("--ask", str(at)) for at in range(1, 7)))
    status, picture, said = draw(PAIR + "end,1,2\n", *asks, replies=replies)
    drawn = shapes(picture, "route")
    checks.same("six routes", (status, said, len(drawn)), (0, "", 6))
    styles = {re.sub("stroke-width:3;", "", route.get("style")) for route in drawn}
    checks.same("no two routes look alike", len(styles), 6)
    ends = {tuple(sorted((numbers[0], numbers[-1]))) for numbers in (re.findall(r"-?[0-9.]+ -?[0-9.]+", route.get("d")) for route in drawn)}
    checks.same("no two routes are on one line", len(ends), 6)
    at = places_in(picture)
    begins = [min(at, key=lambda router: math.dist(at[router], begin_of(route))) for route in drawn]
    checks.same("each route begins at its head-end", begins, ["1.1.1.1", "1.1.1.1", "2.2.2.2", "1.1.1.1", "2.2.2.2", "1.1.1.1"])
    status, picture, said = draw(PAIR + "end,1,2\n", *asks, "--ask", "1", replies=replies)
    checks.same("seven routes are refused", (status, picture, said), (1, "", "draw: at most 6 routes\n"))


def overbooked(_, checks):
    """Links that a sweep says are overbooked have a band under them."""
    line = "before overbooked 1.1.1.1 10.0.0.1 2.2.2.2 10.0.0.2 priority=7 asked=600 above=500 unreserved=1000\n"
    whole = "before routes=2 without=0 overbooked=1\n"
    status, picture, said = draw(LINE + "end,1,4\n", overbooked=line + whole)
    checks.same("an overbooked circuit", (status, said, classes(picture, "band", "circuit")), (0, "", ["band", "circuit", "circuit"]))
    checks.true("the band is in the legend", "overbooked: more is asked of it than it has unreserved" in notes(picture), notes(picture))
    checks.true("what is said of it", "overbooked at priority 7: 1,100 bytes per second are asked of 1,000" in hovers(picture, "circuit")[
        0], hovers(picture, "circuit"))
    bands = [re.sub("Z?$", "", band.get("d")) for band in shapes(picture, "band")]
    checks.same("the band is under its circuit", bands, [shapes(picture, "circuit")[0].get("d")])
    _, picture, _ = draw(LINE + "end,1,4\n", overbooked=whole)
    checks.same("nothing is overbooked", classes(picture, "band"), [])
    status, picture, said = draw(LINE + "end,1,4\n", overbooked=line.replace("10.0.0.1", "10.0.0.9") + whole)
    checks.same("an overbooked link that isn't there", (status, picture, said),
                (1, "", "draw: overbooked: the network has no link 1.1.1.1 10.0.0.9 2.2.2.2 10.0.0.2\n"))
    status, picture, said = draw(LINE + "end,1,4\n", overbooked="text\n")
    checks.true("a file that is no sweep", status == 1 and picture == ""
                and re.fullmatch(r"draw: overbooked: \S+ has no lines of a sweep\n", said), said)


def marks(_, checks):
    """A router without transit is drawn otherwise, and told in the legend; no route passes through it."""
    def shown(*words, **texts):
        status, picture, said = draw(LINE + "end,1,4\nnode,2.2.2.2,0\nnode,9.9.9.9,0\nend,2,2\nnode,2.2.2.2,1\nnode,8.8.8.8,1\nend,3,2\n",
                                     *words, **texts)
        return status, said, picture and (len(shapes(picture, "no-transit")) - 1, "no transit" in picture)

    for version, wanted in (("1", (-1, False)), ("2", (1, True)), ("3", (-1, False))):
        checks.same(f"a router without transit at version {version}", shown("--version", version), (0, "", wanted))
    through = "ask 7 v2 route cost=20 hops=2 again=no ero=0014140101080a000002200001080a0001022000\n"
    checks.same("a route through a router with transit", shown("--ask", "7", replies=through), (0, "", (-1, False)))
    status, said, picture = shown("--version", "2", "--ask", "7", replies=through)
    checks.true("a route through a router without transit is refused", status == 1 and picture == "" and said.startswith("draw: "), said)
    checks.same("a route to a router without transit", shown("--version", "2", "--ask", "7", replies=REPLY), (0, "", (1, True)))


def places(_, checks):
    given = "1.1.1.1 0 0 <b>&\n2.2.2.2 1 1 East\n3.3.3.3 1 1 Nowhere\n"
    status, picture, said = draw(PAIR + "end,1,2\n", places=given)
    checks.same("names that look like markup", [text.text for text in names(picture)], ["<b>&", "East"])
    checks.same("a place of no router", (status, said), (0, "draw: places, line 3: the network has no router 3.3.3.3\n"))
    checks.same("names are said where the pointer is", sorted(hovers(picture, "router")), ["<b>&, 1.1.1.1", "East, 2.2.2.2"])
    status, picture, _ = draw(PAIR + "end,1,2\n", places="1.1.1.1 0 0 a\x01b\n2.2.2.2 1 1 c\n")
    checks.same("a character that no document has", sorted(text.text for text in names(picture)), ["a\ufffdb", "c"])
    for name, given in (("with no y", "1.1.1.1 0\n"), ("without numbers", "1.1.1.1 a b\n")):
        checks.same(f"a place {name} is refused", draw(PAIR + "end,1,2\n", places=given),
                    (1, "", "draw: places, line 1: an address, x and y are wanted\n"))
    for number in ("nan", "inf", "-1e13"):
        checks.same(f"a place at {number}", draw(PAIR + "end,1,2\n", places=f"1.1.1.1 0 {number}\n"),
                    (1, "", "draw: places, line 1: x and y are at most 1e+12\n"))
    checks.same("a place twice", draw(PAIR + "end,1,2\n", places="1.1.1.1 0 0\n\n1.1.1.1 1 0\n"),
                (1, "", "draw: places, line 3: 1.1.1.1 is there twice\n"))
    for name, words, line in (("a reply of no lines", ("--ask", "7"), "--ask needs --replies, the lines that it is one of"),
                              ("a version below 0", ("--version", "-1"), "argument --version: invalid version value: '-1'")):
        status, picture, said = draw(PAIR + "end,1,2\n", *words)
        checks.same(f"{name} is refused", (status, picture, said.splitlines()[-1:]), (2, "", [f"routed-tools draw: error: {line}"]))
    status, picture, said = draw(PAIR + "end,1,2\n", replies=REPLY)
    checks.same("replies of which none is drawn are refused", (status, picture, said.splitlines()[-1:]),
                (2, "", ["routed-tools draw: error: --replies needs --ask, which says whose route is drawn"]))
    for name, rows, why in (("no rows", "<svg/>\n", "it is a network of another format: .*"),
                            ("a word that is no kind", PAIR + "end,1,2\nfoo\n", "row 4 refused: kind; .*"),
                            ("too few fields", "put,1.1.1.1\n", "row 1 refused: fields; .*"),
                            ("a bad mask", PAIR.replace("0x1", "1", 1), "row 1 refused: mask 7; .*"),
                            ("another number", PAIR + "end,2,2\n", "batch 2 refused: expected 1; .*"),
                            ("another count", PAIR + "end,1,1\n", "batch 1 refused: counted 2; .*"),
                            ("a link twice", PAIR + PAIR + "end,1,4\n", "batch 1 refused: duplicate 3; .*"),
                            ("a link that isn't there", "drop,1.1.1.1,10.0.0.1\nend,1,1\n", "batch 1 refused: absent 1; .*")):
        status, picture, said = draw(rows)
        checks.true(f"a file of {name} is refused", status == 1 and picture == "" and re.fullmatch(rf"draw: \S+/rows: {why}\n", said), said)
    status, picture, _ = draw("")
    checks.same("an empty network", (status, notes(picture)), (0, ["The network has no routers."]))
    where(checks)


def where(checks):
    """Where routers are in a picture."""
    square = "1.1.1.1 0 0\n2.2.2.2 30 0\n3.3.3.3 30 10\n"
    at = places_in(draw(LINE + "end,1,4\n", places=square)[1])
    across, down = at["2.2.2.2"][0] - at["1.1.1.1"][0], at["3.3.3.3"][1] - at["2.2.2.2"][1]
    checks.true("the aspect of positions is kept", abs(across / down - 3) < 0.02 and at["2.2.2.2"][1] == at["1.1.1.1"][1], at)
    same = places_in(draw(LINE + "end,1,4\n", places="1.1.1.1 5 5\n2.2.2.2 5 5\n3.3.3.3 5 5\n")[1])
    checks.true("routers at one position are apart", min(math.dist(a, b) for a, b in itertools.combinations(same.values(), 2)) > 20, same)
    status, picture, said = draw(LINE + "end,1,4\n", places="1.1.1.1 0 0\n3.3.3.3 10 4\n")
    at = places_in(picture)
    middle = tuple((a + b) / 2 for a, b in zip(at["1.1.1.1"], at["3.3.3.3"]))
    checks.true("a router without a position is between its neighbors", status == 0 and math.dist(at["2.2.2.2"], middle) < 10, at)
    apart = LINE + PAIR.replace("1.1.1.1", "5.5.5.5").replace("2.2.2.2", "6.6.6.6").replace("10.0.0", "10.0.5") + "end,1,6\n"
    for name, given in (("none", None), ("of one", "1.1.1.1 0 0\n2.2.2.2 10 0\n3.3.3.3 20 5\n")):
        at = places_in(draw(apart, places=given)[1])
        one, other = ([at[it] for it in part] for part in (("1.1.1.1", "2.2.2.2", "3.3.3.3"), ("5.5.5.5", "6.6.6.6")))
        is_apart = any(max(it[axis] for it in one) < min(it[axis] for it in other) for axis in (0, 1))
        checks.true(f"two components, positions {name}", len(at) == 5 and is_apart, at)
    rows = open(os.path.join(TOP, "examples/nsfnet.journal")).read()
    checks.same("the layout is the same each time", draw(rows), draw(rows))
    with tempfile.TemporaryDirectory() as room:
        kept = os.path.join(room, "kept")
        first, second = draw(rows, "--keep", kept, "--version", "1")[1], draw(rows, "--keep", kept, "--version", "2")[1]
        text = open(kept).read()
        checks.same("positions are kept for a set of routers", places_in(second), places_in(first))
        checks.true("another version has another layout where none is kept", places_in(draw(rows, "--version", "2")[1]) != places_in(first))
        draw(rows, "--keep", kept, "--version", "8")
        checks.same("a router that goes keeps its position", open(kept).read(), text)
        checks.same("positions that are kept are positions", places_in(draw(rows, "--places", kept, "--version", "1")[1]), places_in(first))
        with open(kept, "w") as file:
            file.write("".join(text.splitlines(True)[1:]))
        again = places_in(draw(rows, "--keep", kept, "--version", "1")[1])
        checks.same("a new router joins those that are kept", (len(again), len(open(kept).read().splitlines())), (14, 14))
        with open(kept, "w") as file:
            file.write("1.1.1.1 0\n")
        checks.same("what is kept is no position", draw(rows, "--keep", kept),
                    (1, "", "draw: places, line 1: an address, x and y are wanted\n"))
        checks.same("and stays as it is", open(kept).read(), "1.1.1.1 0\n")


def layouts(_, checks):
    """The largest network is laid out and drawn in ten seconds of processor time. A grid is laid out as one."""
    before = resource.getrusage(resource.RUSAGE_CHILDREN)
    status, picture, said = draw(big_network(1024, 8192))
    after = resource.getrusage(resource.RUSAGE_CHILDREN)
    took = after.ru_utime + after.ru_stime - before.ru_utime - before.ru_stime
    checks.same("the largest network", (status, said, len(shapes(picture, "circuit"))), (0, "", 8192))
    checks.true("the largest network takes at most 10 s of processor time", took <= 10, f"{took:.1f} s")
    at = list(places_in(picture).values())
    checks.true("no router of the largest network covers another", len(at) == 1024 and least_distance(at) > 2 * 9, least_distance(at))
    from routed.pictures.layout import lay_out
    grid = [(row, column) for row in range(12) for column in range(12)]
    pairs = [(one, other) for one in grid for other in ((one[0] + 1, one[1]), (one[0], one[1] + 1)) if other in set(grid)]
    at = lay_out(grid, pairs)
    lengths = sorted(math.dist(at[one], at[other]) for one, other in pairs)
    checks.true("circuits of a grid are about as long as each other", lengths[-1] < 3 * lengths[0], (lengths[0], lengths[-1]))
    corners = [at[corner] for corner in ((0, 0), (0, 11), (11, 11), (11, 0))]
    sides = [math.dist(one, other) for one, other in zip(corners, corners[1:] + corners[:1])]
    diagonals = math.dist(corners[0], corners[2]), math.dist(corners[1], corners[3])
    checks.true("the corners of a grid are its corners", min(diagonals) > 1.15 * max(sides) and max(sides) < 1.3 * min(sides),
                (sides, diagonals))
    for name, routers, pairs in (("no router", [], []), ("one router", ["a"], []), ("two routers", ["a", "b"], [("a", "b")]),
                                 ("a star", list(range(40)), [(0, it) for it in range(1, 40)]), ("routers alone", list(range(30)), [])):
        at = lay_out(routers, pairs)
        checks.true(f"the layout of {name}", sorted(at) == sorted(routers) and least_distance(list(at.values())) > 0.1, at)


def failures(_, checks):
    """The failures of a ring of four routers, whose lines are worked by hand."""
    def drawn(lines, places="".join(f"{at}.{at}.{at}.{at} {at % 2} {at // 3} Router {at}\n" for at in (1, 2, 3, 4))):
        return draw_failures(lines, places)

    status, picture, err = drawn(BEFORE + OF_CIRCUITS)
    checks.same("failures are drawn", (status, err), (0, ""))
    kinds = classes(picture, "lost", "longer", "overbooked", "none")
    counts = [text.text for text in xml.fromstring(picture).iter(SVG + "text") if text.get("class") == "counts"]
    checks.same("what each circuit's failure does", (kinds, counts),
                (["overbooked", "lost", "longer", "none"], ["0/2/2", "1/0/0", "0/1/0"]))
    checks.same("the routers of failures", sorted(text.text for text in names(picture)), ["Router 1", "Router 2", "Router 3", "Router 4"])
    checks.same("what is overbooked while nothing fails", [band.get("d") for band in shapes(picture, "band")],
                [shapes(picture, "overbooked")[0].get("d")])
    checks.same("what is said of a failure", hovers(picture, "overbooked")[0].split("\n"), [
        "without Router 1 – Router 2 (1.1.1.1 10.0.12.1 2.2.2.2 10.0.12.2)", "2 get a longer one: 1, 2",
        "overbooked then: 1.1.1.1 10.0.14.1 4.4.4.4 10.0.14.4", "overbooked then: 4.4.4.4 10.0.34.4 3.3.3.3 10.0.34.3",
        "overbooked while nothing fails, at priority 7: 120 bytes per second are asked of 100"])
    only = "scenario 4 overbooked 4.4.4.4 10.0.34.4 3.3.3.3 10.0.34.3 priority=7 asked=60 above=60 unreserved=100\nscenario 4 lost"
    _, picture, _ = drawn(BEFORE + OF_CIRCUITS.replace("scenario 4 lost", only))
    checks.same("a failure by which a link is overbooked alone", (classes(picture, "overbooked", "none"), notes(picture)[1]),
                (["overbooked", "overbooked"], "no request loses its route, and a link is overbooked more than before"))
    more = BEFORE.replace("asked=60 above=60", "asked=60 above=59", 1)
    checks.same("a link that is overbooked more than before", classes(drawn(more + OF_CIRCUITS)[1], "overbooked", "none"),
                ["overbooked", "overbooked" if "scenario 4 overbooked" in OF_CIRCUITS else "none"])
    _, picture, _ = drawn(BEFORE + OF_CIRCUITS.replace("scenario 4 out circuit", "scenario 4 out link"))
    checks.true("a link that fails alone has an arrow", classes(picture, "arrow") and "one direction alone" in notes(picture),
                notes(picture))
    _, picture, err = drawn("before routes=0 without=0 overbooked=0\nscenarios=0 lost=0 longer=0 overbooked=0\n", places="")
    checks.same("a network without circuits", (err, notes(picture)), ("", ["The network has no circuits."]))
    twice = OF_CIRCUITS.replace("scenario 4 out circuit 3.3.3.3 10.0.34.3 4.4.4.4 10.0.34.4",
                                "scenario 4 out circuit 3.3.3.3 10.1.23.3 2.2.2.2 10.1.23.2")
    paths = [line.get("d") for line in xml.fromstring(drawn(twice)[1]).iter(SVG + "path")
             if line.get("class") in ("lost", "longer", "overbooked", "none")]
    checks.true("two circuits of one pair whose failures are drawn are apart", len(set(paths)) == 4, paths)
    status, picture, err = drawn(OF_CIRCUITS, "1.1.1.1 0 0\n2.2.2.2 1 1\n3.3.3.3 0 1\n9.9.9.9 0 0\n")
    checks.same("failures without some positions", (status, err, len(places_in(picture))),
                (0, "draw-failures: places, line 4: the network has no router 9.9.9.9\n", 4))
    for name, given, why in [
            ("a sweep that is cut", (OF_CIRCUITS[:OF_CIRCUITS.index("scenarios=")],), f"the sweep isn't whole; {ALL}"),
            ("a scenario that lacks", (OF_CIRCUITS[OF_CIRCUITS.index("scenario 2 out"):],), f"the sweep isn't whole; {ALL}"),
            ("two circuits at once", (OF_CIRCUITS.replace("scenario 2 out", "scenario 1 out"),), f"scenario 1 has two circuits out; {ALL}"),
            ("routers", (OF_CIRCUITS.replace("out circuit", "out router"),), f"scenario 1 has no circuit out; {ALL}"),
            ("a place without numbers", (OF_CIRCUITS, "1.1.1.1 a b\n"), "places, line 1: an address, x and y are wanted")]:
        checks.same(f"not drawn: {name}", drawn(*given), (1, "", f"draw-failures: {why}\n"))


def sizes(_, checks):
    """From 14 to 1,024 routers a picture is no wider than a screen, texts and routes have one size, and the ends of a route have names."""
    for routers in (14, 50, 200, 1024):
        rows = big_network(routers, 2 * routers)
        given = "".join(f"172.16.{at >> 8}.{at & 255} {at % 32} {at // 32} R{at}\n" for at in range(1, routers + 1))
        middle = routers // 2  # which has other routers on all sides
        hop = f"0a00{middle - 1 >> 7:02x}{2 * (middle - 1 & 127) + 1:02x}"  # the next router's interface
        _, picture, _ = draw(rows, "--ask", "7", places=given, replies=REPLY.replace("0a000002", hop))
        root = xml.fromstring(picture)
        checks.true(f"the width for {routers} routers", 720 <= int(root.get("width")) <= 1200, root.get("width"))
        checks.true(f"texts of {routers} routers have 15 pixels", "text{font:15px " in picture
                    and root.get("viewBox").split()[2] == root.get("width"))
        checks.true(f"the route of {routers} routers", "stroke-width:3;" in shapes(picture, "route")[0].get("style"))
        checks.true(f"the names of its ends among {routers}", {f"R{middle}", f"R{middle + 1}"} <= {text.text for text in names(picture)})
    cities = "1.1.1.1 0 0 Oslo\n2.2.2.2 1 0 Bergen\n3.3.3.3 2 0 Tromso\n"
    _, part, _ = draw(LINE + "end,1,4\n", "--around", "Oslo", "--hops", "1", places=cities)
    checks.same("the part round a router", sorted(text.text for text in names(part)), ["Bergen", "Oslo"])
    status, picture, said = draw(LINE + "end,1,4\n", "--around", "Narvik")
    checks.same("no such router", (status, picture, said),
                (1, "", "draw: --around: the network has no routers Narvik; give the address of one\n"))


def pictures(program, checks):
    checks.parts((sizes, circuits, routes, pairs, overbooked, marks, places, failures, circuit_steps, circuit_replies, not_drawn,
                  layouts, placer, apart), program, checks)
