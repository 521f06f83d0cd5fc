"""Tests of routed-tools draw-circuit: what a link has left at each version, and where the marks of replies are. Each value is worked by
hand from the rows."""
import os
import re
import subprocess
import tempfile
import xml.etree.ElementTree as xml

from checks import TOOLS
from tools.drawing import SVG, hovers, link, notes, shapes
from tools.measured import by_table, faults

ENDS = ("1.1.1.1", "10.0.0.1"), ("2.2.2.2", "10.0.0.2")  # of the circuit
ROUND = ("1.1.1.1", "10.0.1.1"), ("2.2.2.2", "10.0.1.2")  # of another one between the same routers
NAMED = "1.1.1.1,10.0.0.1"
THERE, BACK, ASIDE = "0a000002", "0a000001", "0a000102"  # the addresses to which links lead


def free(least, others=900):
    """Eight bandwidths, of which that at priority 7 is the first one."""
    return ",".join([str(others)] * 7 + [str(least)])


def put(least, others=900):
    return link(*ENDS[0], *ENDS[1], free=free(least, others))


def journal(*lefts):
    """A journal whose first batch has two circuits, and each further one a change of the link's row; None drops it."""
    text = put(lefts[0]) + link(*ENDS[1], *ENDS[0]) + link(*ROUND[0], *ROUND[1]) + link(*ROUND[1], *ROUND[0]) + "end,1,4\n"
    return text + "".join(f"{'drop,' + NAMED + chr(10) if left is None else put(left)}end,{at},1\n" for at, left in enumerate(lefts[1:], 2))


def route(name, version, far, word="ask"):
    return f"{word} {name} v{version} route cost=10 hops=1 again=no ero=000c14010108{far}2000\n"


def drawn(rows, *replies, named=NAMED, words=()):
    """Status, picture and standard error of one drawing, in which the folder of its files is called ROOM."""
    with tempfile.TemporaryDirectory() as room:
        given = []
        for at, text in enumerate([rows, *replies]):
            path = os.path.join(room, f"replies{at}" if at else "journal")
            with open(path, "w", encoding="utf-8") as file:
                file.write(text)
            given += ["--replies", path] if at else [path, named]
        ran = subprocess.run([TOOLS, "draw-circuit", *given, *words], capture_output=True, text=True)
        return ran.returncode, ran.stdout, ran.stderr.replace(room, "ROOM")


def desc_of(picture):
    return xml.fromstring(picture).find(SVG + "desc").text


def marks(picture, *kinds):
    """The marks of some uses, in the order of the picture, without those of the legend."""
    return [it for it in xml.fromstring(picture).iter() if it.get("class") in kinds and it.find(SVG + "title") is not None]


def texts_of(picture):
    """What is said of all marks."""
    return [it.find(SVG + "title").text for it in marks(picture, "used", "back", "other", "none")]


def middles(picture, kind):
    """Where the marks of a use are."""
    return [(float(it.get("cx")), float(it.get("cy"))) if it.get("cx") else middle_of(it.get("d")) for it in marks(picture, kind)]


def middle_of(path):
    """The middle of a diamond, or of a cross."""
    x, y, half = (float(it) for it in re.match(r"M([\d.]+) ([\d.]+)l(\d+) ", path).groups())
    return (x, y + half) if path.endswith("z") else (x + half / 2, y + half / 2)


def corners(picture):
    """The corners of the steps: x and y in turn."""
    return [[float(it) for it in re.findall(r"[\d.]+", path.get("d"))] for path in shapes(picture, "left")]


def circuit_steps(_, checks):
    """What is left at each version, on the scale of bandwidths."""
    status, picture, said = drawn(journal(1000, 1000, 400, None, 0, 700))
    checks.same("a link is drawn", (status, said), (0, ""))
    checks.same("what is said of its steps", hovers(picture, "run"), [
        "versions 1 to 2: 1,000 bytes per second left", "version 3: 400 bytes per second left", "version 4: the link isn't there",
        "version 5: 0 bytes per second left", "version 6: 700 bytes per second left"])
    first, second = corners(picture)
    (left, top), right = first[:2], second[-1]
    wide = (right - left) / 6
    axis = second[1]  # where it has 0 left
    high = axis - top
    checks.same("where the steps are before the link goes", [round(it) for it in first],
                [round(it) for it in (left, top, left + 2 * wide, axis - 0.4 * high, left + 3 * wide)])
    checks.same("and after it has come back", [round(it) for it in second],
                [round(it) for it in (left + 4 * wide, axis, left + 5 * wide, axis - 0.7 * high, left + 6 * wide)])
    checks.true("the legend says that the link is gone", "no line: the link isn't in the network" in notes(picture), notes(picture))
    checks.same("the description", desc_of(picture), (
        f"1.1.1.1 to 2.2.2.2 ({NAMED}) at priority 7. versions 1 to 2: 1,000 bytes per second left; version 3: 400 bytes per second left; "
        "version 4: the link isn't there; version 5: 0 bytes per second left; version 6: 700 bytes per second left."))
    labels = [text.text for text in xml.fromstring(picture).iter(SVG + "text") if text.get("class") == "counts"]
    checks.same("the labels of the scales", labels, ["0", "200", "400", "600", "800", "1,000", "another way", "no route",
                                                     "bytes per second left at priority 7", "1", "2", "3", "4", "5", "6", "version"])
    ticks = [float(path.get("d").split()[1].split("H")[0]) for path in shapes(picture, "scale")]
    checks.same("the lines of the scale", [round(it) for it in ticks], [round(axis - part * high) for part in (0, .2, .4, .6, .8, 1)])
    checks.same("another priority", hovers(drawn(journal(1000, 400), words=("--priority", "6"))[1], "run"),
                ["versions 1 to 2: 900 bytes per second left"])
    checks.same("the other direction", hovers(drawn(journal(1000, 400), named="2.2.2.2,10.0.0.2")[1], "run"),
                ["versions 1 to 2: 1,000 bytes per second left"])
    checks.same("changes behind the last end row", hovers(drawn(journal(1000) + put(1))[1], "run"),
                ["version 1: 1,000 bytes per second left"])
    checks.same("nothing is left at any version", hovers(drawn(journal(0))[1], "run"), ["version 1: 0 bytes per second left"])
    checks.same("the most that a link can have", faults_of(drawn(journal(2 ** 64 - 1, 1))[1]), [])
    names = drawn(journal(5), words=("--title", "<A & B>"))[1]
    checks.same("a title that looks like markup", xml.fromstring(names).find(SVG + "title").text, "<A & B>")
    many(checks)


def many(checks):
    """A journal of more versions than the picture has steps."""
    lefts = [1000 - at for at in range(900)]
    status, picture, said = drawn(journal(*lefts), "".join(route(at, at, THERE) for at in range(1, 901)) + route(901, 900, THERE))
    checks.same("900 versions", (status, said), (0, ""))
    checks.true("the legend says how many are one step", "a step is 3 versions: the least that is left in them" in notes(picture),
                notes(picture))
    checks.same("the first and the last step", [hovers(picture, "run")[at] for at in (0, -1)],
                ["versions 1 to 3: 998 bytes per second left", "versions 898 to 900: 101 bytes per second left"])
    found = texts_of(picture)
    checks.same("replies that have no room are one mark", (len(found), found[0], found[-1]), (
        300, "3 replies: ask 1 v1, ask 2 v2, ask 3 v3: route uses the link",
        "4 replies: ask 898 v898, ask 899 v899, ask 900 v900, ask 901 v900: route uses the link"))
    checks.true("larger marks are in the legend", "a larger mark: several replies" in notes(picture), notes(picture))
    checks.same("the texts of 900 versions", faults_of(picture), [])


def faults_of(picture):
    return faults(picture, by_table(picture))


def circuit_replies(_, checks):
    """The mark of each reply is at its version: on the line if its route uses the circuit, else below the axis."""
    rows = journal(1000, 400, 700)
    lines = (route(1, 1, THERE) + "row 2 refused: kind\n" + route(2, 2, ASIDE) + "ask 3 v2 none\n" + route(4, 3, BACK)
             + route(5, 3, THERE, "except") + "ask 6 v3 unknown-to\n")
    status, picture, said = drawn(rows, lines)
    checks.same("replies are drawn", (status, said), (0, ""))
    left, top, *_, right = corners(picture)[0]
    wide = (right - left) / 3
    axis = top + 250
    high = {1000: top, 400: axis - 100, 700: axis - 175}

    def at(use):
        return [(round(x), round(y)) for x, y in middles(picture, use)]

    checks.same("replies by the link are on its line", at("used"),
                [(round(left + wide / 2), round(high[1000])), (round(left + 2.75 * wide), round(high[700]))])
    checks.same("and so is one by its other direction", at("back"), [(round(left + 2.25 * wide), round(high[700]))])
    checks.same("another way is below the axis", at("other"), [(round(left + 1.5 * wide), round(axis + 24))])
    checks.same("no route is below that", at("none"), [(round(left + part * wide), round(axis + 48)) for part in (1.5, 2.5)])
    checks.same("what is said of them", texts_of(picture), [
        "ask 1 v1: route uses the link", "ask 2 v2: route takes another way", "ask 3 v2: no route",
        "ask 4 v3: route uses the circuit in the other direction", "except 5 v3: route uses the link", "ask 6 v3: no route"])
    counts = ["2 replies: route uses the link", "1 reply: route uses the circuit in the other direction",
              "1 reply: route takes another way", "2 replies: no route"]
    checks.same("the legend counts them", notes(picture)[1:], counts)
    checks.true("and so does the description", desc_of(picture).endswith(" " + " ".join(f"{it}." for it in counts)), desc_of(picture))
    checks.same("replies of two clients", drawn(rows, lines[:lines.index("ask 3")], lines[lines.index("ask 3"):]), (0, picture, ""))
    checks.same("texts cover nothing", faults_of(picture), [])
    known = drawn(rows, "ask 1 v0 unknown-from\n")[1]
    checks.same("a reply before the first batch", (hovers(known, "run")[0], texts_of(known)),
                ("version 0: the link isn't there", ["ask 1 v0: no route"]))
    others = "base 1 v1\nplace 1 v2 none\nreleased 1 v3\nover 1.1.1.1,10.0.0.1 7\nlost 1\nversion 3\nunended 1\n"
    checks.same("other lines are passed over", notes(drawn(rows, others)[1]), notes(drawn(rows)[1]))
    one, two = f"cost1=10 ero1=000c14010108{THERE}2000", f"cost2=10 ero2=000c14010108{ASIDE}2000"
    pairs = f"pair 1 v3 pair cost=20 hops=2 {one} {two}\npair 2 v3 each by {NAMED}\npair 3 v1 none\n"
    checks.same("lines of pairs", notes(drawn(rows, pairs)[1])[1:], ["1 reply: route uses the link", "2 replies: no route"])


def not_drawn(_, checks):
    """What can't be drawn is refused by its name, and there is no picture."""
    rows = journal(1000, None)
    begun = "draw-circuit: ROOM/replies1: line "
    for name, given, why in [
            ("a journal without a batch", ("",), "draw-circuit: ROOM/journal: the journal has no batch"),
            ("a link that no version has", (rows, "", "1.1.1.1,10.0.0.9"),
             "draw-circuit: ROOM/journal: no version has the link 1.1.1.1,10.0.0.9"),
            ("a request in a journal", (rows + "ask,1,1.1.1.1,2.2.2.2,7,1,0x0,0x0,0x0,\n",),
             "draw-circuit: ROOM/journal: row 8 refused: kind; a row begins with put, drop, node, end or ask"),
            ("a batch that doesn't fit", (rows + f"drop,{NAMED}\nend,3,1\n",),
             "draw-circuit: ROOM/journal: batch 3 refused: absent 1; drop only links that are there"),
            ("lines in place of a journal", ("base 1 v1\n",),
             "draw-circuit: ROOM/journal: it is lines that routed or a tool has written, not rows"),
            ("a version that the journal lacks", (rows, "ask 1 v1 none\nask 2 v3 none\n"),
             f"{begun}2: the journal has no version 3, the last one is 2: ask 2 v3 none"),
            ("a route that its version hasn't", (rows, route(1, 1, THERE) + route(2, 2, THERE)),
             f"{begun}2: version 2: the network has no such route: {route(2, 2, THERE)[:-1]}"),
            ("another cost", (rows, route(1, 1, THERE).replace("cost=10", "cost=11")),
             f"{begun}1: version 1: the network has no such route: {route(1, 1, THERE)[:-1].replace('cost=10', 'cost=11')}"),
            ("a reply that is cut", (rows, route(1, 1, THERE)[:-5]), f"{begun}1: version 1: no line of routed: {route(1, 1, THERE)[:-5]}"),
            ("a reply without a version", (rows, "ask 1\n"), f"{begun}1: no line of routed: ask 1"),
            ("a row in place of a line", (rows, f"drop,{NAMED}\n"), f"{begun}1: no line of routed: drop,{NAMED}")]:
        checks.same(f"not drawn: {name}", drawn(given[0], *given[1:2], named=(*given, NAMED)[2] if len(given) == 3 else NAMED),
                    (1, "", f"{why}\n"))
    for text in ("1.1.1.1", "1.1.1.1,10.0.0", "a,b", "1.1.1.1,10.0.0.1,7"):
        status, picture, said = drawn(rows, named=text)
        checks.same(f"no link: {text}", (status, picture, said.splitlines()[-1]),
                    (2, "", f"routed-tools draw-circuit: error: argument ROUTER,LOCAL: {text!r} is no link; a link is a router, a comma, "
                            "and the interface at which it begins"))
    from routed.pictures import uses
    most = uses.MOST_ROWS
    with tempfile.NamedTemporaryFile("w") as file:
        file.write("row 1 refused: kind\n" * 3)
        file.flush()
        uses.MOST_ROWS = 2
        try:
            found = uses.read_replies([file.name])
        except ValueError as fault:
            found = str(fault)
        finally:
            uses.MOST_ROWS = most
    checks.same("more lines than an audit takes", (most, found), (1_000_000, "the replies have more than 2 lines"))
