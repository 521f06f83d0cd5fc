"""Tests of routed-tools import: rows, positions and requests worked by hand, what is listed, what is refused, and that `routed` takes the
rows."""
import os
import re
import subprocess
import tempfile

from checks import TOOLS, TOP
from reference import pairs
from reference.formats import records
from reference.runs import publish, whole_batches

SNDLIB = """?SNDlib native format; type: network; version: 1.0
# three sites
META (
  granularity = SINGLE
)
NODES (
  A ( 0.00 0.00 )
  B_2 ( 1.00 0.00 )   # one degree to the east: 111.2 km
  C ( 1.00 1.00 )
)
LINKS (
  L1 ( A B_2 ) 8.00 0.00 0.00 0.00 ( 40.00 1.00 )
  L2 ( B_2 C ) 0.00 5.00 0.00 2.00 ( 10.00 1.00 40.00 3.00 )
)
DEMANDS (
  D1 ( A C ) 1 2.50 UNLIMITED
  D2 ( C A ) 2 0.3 3
)
ADMISSIBLE_PATHS (
  D1 ( P1 ( L1 L2 ) )
)
"""
ROWS = """put,192.168.0.1,10.0.0.0,192.168.0.2,10.0.0.1,111,0x0,1000000,1000000,1000000,1000000,1000000,1000000,1000000,1000000
put,192.168.0.2,10.0.0.1,192.168.0.1,10.0.0.0,111,0x0,1000000,1000000,1000000,1000000,1000000,1000000,1000000,1000000
put,192.168.0.2,10.0.0.2,192.168.0.3,10.0.0.3,111,0x0,5000000,5000000,5000000,5000000,5000000,5000000,5000000,5000000
put,192.168.0.3,10.0.0.3,192.168.0.2,10.0.0.2,111,0x0,5000000,5000000,5000000,5000000,5000000,5000000,5000000,5000000
end,1,4
"""
PLACES = """# router, km to the east, km to the south, name
192.168.0.1 0.0 111.2 A
192.168.0.2 111.2 111.2 B 2
192.168.0.3 111.2 0.0 C
"""
ASKS = """ask,1,192.168.0.1,192.168.0.3,7,312500,0x0,0x0,0x0,
ask,2,192.168.0.3,192.168.0.1,7,75000,0x0,0x0,0x0,
"""
NO_UNIT = "no unit: one unit is taken as 1 Mbit/s, 125,000 bytes per second; --unit says another\n"
LISTED = f"""3 routers, 2 circuits, 2 demands; metrics are kilometers between the sites
{NO_UNIT}no routing cost: it is 0 for each link
left out: cost of what is installed
left out: id of a demand (2 times)
left out: id of a link (2 times)
left out: link with nothing installed, whose largest module is taken
left out: longest path of a demand
left out: module of a link (3 times)
left out: routing unit other than 1, by which the value is multiplied
left out: section ADMISSIBLE_PATHS
left out: section META
left out: setup cost
"""
KEYS = "".join(f'<key id="{name}" for="{kind}" attr.name="{name}" attr.type="string"/>' for name, kind in (
    ("label", "node"), ("Longitude", "node"), ("Latitude", "node"), ("Country", "node"), ("LinkSpeedRaw", "edge"), ("LinkSpeed", "edge"),
    ("LinkSpeedUnits", "edge"), ("Network", "graph")))


def graphml(inside, directed="undirected", keys=KEYS):
    return ('<?xml version="1.0" encoding="utf-8"?><graphml xmlns="http://graphml.graphdrawing.org/xmlns">'
            f'{keys}<graph edgedefault="{directed}"><data key="Network">N</data>{inside}</graph></graphml>')


def node(name, label="", place=None, more=""):
    where = f'<data key="Longitude">{place[0]}</data><data key="Latitude">{place[1]}</data>' if place else ""
    return f'<node id="{name}"><data key="label">{label}</data>{where}{more}</node>'


def edge(one, other, more="", words=""):
    return f'<edge source="{one}" target="{other}" {words}>{more}</edge>'


ZOO = graphml(node("0", "Köln &lt;Nord&gt;", (6.96, 50.94), '<data key="Country">Germany</data>')
              + node("7", " Bonn\n(Süd) ", (7.10, 50.74)) + node("x") +
              node("alone", "Mars") + edge(0, 7, '<data key="LinkSpeedRaw">8000.0</data>', 'id="e1"') +
              edge(7, "x", '<data key="LinkSpeed">10</data><data key="LinkSpeedUnits">K</data>') + edge("x", 7) + edge("x", "x"))


def put(one, local, other, remote, metric, free):
    return f"put,192.168.0.{one},10.0.0.{local},192.168.0.{other},10.0.0.{remote},{metric},0x0,{','.join([str(free)] * 8)}\n"


def both(one, other, local, metric, free, back=None):
    return put(one, local, other, local + 1, metric, free) + put(other, local + 1, one, local, metric, free if back is None else back)


def run(text, *words, name="network", rows=""):
    """Status, rows, standard error without the tool's name, and the files that were written."""
    with tempfile.TemporaryDirectory() as room:
        with open(os.path.join(room, name), "wb") as file:
            file.write(text if isinstance(text, bytes) else text.encode())
        ran = subprocess.run([TOOLS, "import", name, *words], capture_output=True, text=True, cwd=room, input=rows)
        written = {it: open(os.path.join(room, it)).read() for it in sorted(os.listdir(room)) if it != name}
        return ran.returncode, ran.stdout, re.sub("(?m)^import: ", "", ran.stderr), written


def sndlib(_, checks):
    both_files = ("--places", "places", "--requests", "requests")
    wanted = (0, ROWS, LISTED, {"places": PLACES, "requests": ASKS})
    checks.same("SNDlib's native format", run(SNDLIB, *both_files), wanted)
    checks.same("with a byte order mark and carriage returns", run("\ufeff" + SNDLIB.replace("\n", "\r\n"), *both_files), wanted)
    checks.same("in one line", run(SNDLIB.partition("\n")[0] + "\n" + re.sub(r"\s+", " ", re.sub("#.*", "", SNDLIB.partition("\n")[2])),
                                   *both_files), wanted)
    status, rows, said, written = run(SNDLIB)
    checks.true("demands that nothing is written of are listed",
                "left out: 2 demands, which --requests FILE writes\n" in said and written == {}, said)
    checks.same("another unit", run(SNDLIB, "--unit", "1000", "--requests", "requests")[1:4:2],
                (ROWS.replace("1000000", "8000").replace("5000000", "40000"),
                 {"requests": ASKS.replace("312500", "2500").replace("75000", "600")}))
    checks.same("half a byte is rounded", run(SNDLIB, "--unit", "1000.125", "--requests", "requests")[1:4:2],
                (ROWS.replace("1000000", "8001").replace("5000000", "40005"),
                 {"requests": ASKS.replace("312500", "2501").replace("75000", "601")}))
    checks.same("another setup priority", run(SNDLIB, "--setup", "3", "--requests", "requests")[3],
                {"requests": ASKS.replace(",7,", ",3,")})
    priced = SNDLIB.replace("8.00 0.00 0.00 0.00", "8.00 0.00 2.40 0.00").replace("0.00 5.00 0.00 2.00", "0.00 5.00 0.20 2.00")
    rows = ROWS.replace("10.0.0.1,111", "10.0.0.1,2").replace("10.0.0.0,111", "10.0.0.0,2").replace(",111,", ",1,")
    status, found, said, _ = run(priced)
    checks.same("routing costs are metrics", (status, found, said.splitlines()[0]),
                (0, rows, "3 routers, 2 circuits, 2 demands; metrics are the routing costs"))
    checks.same("kilometers in place of them", run(priced, "--metric", "km")[1], ROWS)
    checks.same("each metric 1", run(SNDLIB, "--metric", "one")[1], ROWS.replace(",111,", ",1,"))
    checks.same("no routing costs", run(SNDLIB, "--metric", "cost")[:3], (1, "", "network: --metric cost: a link has no routing cost\n"))
    plane = SNDLIB.replace("( 1.00 1.00 )", "( 400 300 )")
    status, rows, said, written = run(plane, "--places", "places")
    checks.same("positions that are no longitudes and latitudes", (rows, said.splitlines()[0], written["places"]), (
        ROWS.replace(",111,", ",1,"), "3 routers, 2 circuits, 2 demands; metrics are 1",
        "# router, east, south, name\n192.168.0.1 0 -0 A\n192.168.0.2 1 -0 B 2\n192.168.0.3 400 -300 C\n"))
    bare = SNDLIB.replace("( 1.00 0.00 )", "").replace("( 40.00 1.00 )", "( )").replace("8.00 0.00", "0.00 0.00")
    status, rows, said, written = run(bare, "--places", "places", "--capacity", "7")
    checks.same("a site without a position, and a link without a capacity",
                (rows, said.splitlines()[:1] + said.splitlines()[3:5], len(written["places"].splitlines())), (
        ROWS.replace(",111,", ",1,").replace("1000000", "7"),
        ["3 routers, 2 circuits, 2 demands; metrics are 1", "no position: the site B 2",
                                                                "no capacity: 2 links, which have 7 bytes per second"], 3))


def zoo(_, checks):
    status, rows, said, written = run(ZOO, "--places", "places")
    wanted = both(1, 2, 0, 1, 1000) + both(2, 3, 2, 1, 1250) + both(3, 2, 4, 1, 1250000000) + "end,1,6\n"
    checks.same("GraphML", (status, rows), (0, wanted))
    checks.same("its sites with positions", written["places"], "# router, km to the east, km to the south, name\n"
                "192.168.0.1 0.0 0.0 Köln <Nord>\n192.168.0.2 9.8 22.2 Bonn (Süd)\n")
    checks.same("what it has that rows don't", said, "".join(f"{line}\n" for line in (
        "3 routers, 3 circuits, 0 demands; metrics are 1", "no row: the site Mars has no link", "no position: the site x",
        "no capacity: 2 links, which have 1,250,000,000 bytes per second", "left out: Country of a node", "left out: Network of the graph",
        "left out: id of an edge", "left out: link from a site to itself")))
    directed = graphml(node("a") + node("b") + node("c") + edge("a", "b", '<data key="LinkSpeedRaw">8</data>') + edge("c", "b") +
                       edge("b", "a", '<data key="LinkSpeedRaw">16</data>') + edge("a", "b", '<data key="LinkSpeedRaw">0</data>')
                       + edge("c", "a", "", 'directed="false"'), "directed")
    status, rows, said, _ = run(directed, "--capacity", "5")
    checks.same("directed edges", rows, both(1, 2, 0, 1, 1, 2) + put(3, 2, 2, 3, 1, 5) + put(1, 4, 2, 5, 1, 0) + both(3, 1, 6, 1, 5)
                + "end,1,6\n")
    checks.true("edges of one way are listed", "no reverse: 2 links, which carry no route\n" in said, said)
    west = graphml(node("a", "A", (179.5, 0)) + node("b", "B", (-179.5, 0)) + edge("a", "b"))
    checks.same("a network across the 180th meridian", [run(west, "--places", "places")[it] for it in (1, 3)], [
        both(1, 2, 0, 111, 1250000000) + "end,1,2\n",
        {"places": "# router, km to the east, km to the south, name\n192.168.0.1 0.0 0.0 A\n192.168.0.2 111.2 0.0 B\n"}])
    same = graphml(node("a", "A", (1, 2)) + node("b", "B", (1, 2)) + edge("a", "b"))
    status, rows, said, _ = run(same)
    checks.true("two sites at one position", rows == both(1, 2, 0, 1, 1250000000) + "end,1,2\n"
                and "one position for 2 sites: 1 2\n" in said, said)
    checks.same("one site", run(graphml(node("a", "A", (1, 2))), "--places", "places"), (
        0, "", "0 routers, 0 circuits, 0 demands; metrics are 1\nno row: the site A has no link\nleft out: Network of the graph\n",
        {"places": "# router, km to the east, km to the south, name\n"}))
    for speed, unit in (("&lt;10", "G"), ("fast", "")):
        status, rows, said, _ = run(graphml(node("a") + node("b")
                                            + edge("a", "b",
                                                   f'<data key="LinkSpeed">{speed}</data><data key="LinkSpeedUnits">{unit}</data>')))
        checks.true(f"a speed that can't be read: {speed} {unit}", status == 0 and "left out: LinkSpeed that can't be read\n" in said
                    and rows == both(1, 2, 0, 1, 1250000000) + "end,1,2\n", said)
    default = KEYS.replace('attr.name="LinkSpeedRaw" attr.type="string"/>',
                           'attr.name="LinkSpeedRaw" attr.type="string"><default>80</default></key>')
    checks.same("a default", run(graphml(node("a") + node("b") + edge("a", "b"), keys=default))[1], both(1, 2, 0, 1, 10) + "end,1,2\n")
    sixteen = ZOO.replace("utf-8", "utf-16").encode("utf-16")
    checks.same("in another encoding", run(sixteen, "--places", "places"), run(ZOO, "--places", "places"))
    far = "".join(node(at) for at in range(300)) + "".join(edge(at, at + 1) for at in range(299))
    addresses = re.findall(r"(?m)^put,([^,]*),([^,]*)", run(graphml(far))[1])
    checks.same("addresses above 255", (len(set(addresses)), addresses[-1]), (598, ("192.168.1.44", "10.0.2.85")))


def refusals(_, checks):
    pair = node("a") + node("b")
    for name, text, why in [
            ("neither format", "put,1.1.1.1\n", "neither SNDlib's native format nor GraphML"),
            ("nothing", "", "neither SNDlib's native format nor GraphML"),
            ("SNDlib's XML", '<network xmlns="http://sndlib.zib.de/network"/>', "no GraphML: the document is a network"),
            ("a solution", SNDLIB.replace("type: network", "type: solution"), "line 1: a network is wanted, not a solution"),
            ("a section that isn't there", SNDLIB.replace("META", "MATE"), "line 3: there is no section MATE"),
            ("a file that is cut", SNDLIB[:SNDLIB.index("L2") + 8], "line 13: a target is wanted"),
            ("a section that isn't closed", SNDLIB[:SNDLIB.index("L2")], "line 12: a link is wanted"),
            ("an unclosed section that is passed over", SNDLIB[:SNDLIB.rindex(")")], "line 20: ) is wanted"),
            ("a latitude that is no number", SNDLIB.replace("0.00 )", "north )", 1), "line 7: a latitude is wanted, not north"),
            ("a longitude that isn't finite", SNDLIB.replace("( 0.00", "( nan", 1), "line 7: a longitude is wanted, not nan"),
            ("a site twice", SNDLIB.replace("  C (", "  A ("), "line 9: the site A is there twice"),
            ("a link to no site", SNDLIB.replace("( A B_2 )", "( A B )"), "line 12: there is no site B"),
            ("a demand from no site", SNDLIB.replace("D2 ( C A )", "D2 ( X A )"), "line 17: there is no site X"),
            ("a capacity below 0", SNDLIB.replace("8.00", "-8.00"), "line 12: a number is below 0"),
            ("a demand below 0", SNDLIB.replace("2.50", "-2.50"), "line 16: a number is below 0"),
            ("bytes that are no text", SNDLIB.encode() + b"\xff", f"byte {len(SNDLIB) + 1} is no UTF-8"),
            ("a document that is cut", ZOO[:400], None), ("a document without a graph", "<graphml/>", "no graph is there"),
            ("a node without an id", graphml("<node/>"), "a node has no id"),
            ("a node twice", graphml(node("a") + node("a")), "node a: the site a is there twice"),
            ("an edge to no node", graphml(pair + edge("a", "c")), "edge a c: there is no site c"),
            ("an edge without ends", graphml(pair + "<edge/>"), "edge None None: there is no site None"),
            ("a latitude that is a word", graphml(node("a", "A", (1, "north"))), "node a: latitude is no number: north"),
            ("a speed that is a word", graphml(pair + edge("a", "b", '<data key="LinkSpeedRaw">fast</data>')),
             "edge a b: linkspeedraw is no number: fast"),
            ("a speed below 0", graphml(pair + edge("a", "b", '<data key="LinkSpeedRaw">-1</data>')), "edge a b: a speed is below 0"),
            ("too many routers", graphml("".join(node(at) for at in range(1025)) + "".join(edge(at, at + 1) for at in range(1024))),
             "1025 routers and 2048 links are there, and routed takes 1024 and 16384"),
            ("too many links", graphml(pair + edge("a", "b") * 8193),
             "2 routers and 16386 links are there, and routed takes 1024 and 16384")]:
        status, rows, said, written = run(text, "--places", "places", "--requests", "requests")
        checks.true(f"refused: {name}", (status, rows, written) == (1, "", {}) and said.count("\n") == 1
                    and (said == f"network: {why}\n" if why else said.startswith("network: no XML: ")), said)
    status, rows, said, _ = run(SNDLIB, "--places", "no/places")
    checks.true("a file that can't be written", (status, rows) == (1, "") and said.count("\n") == 1, said)
    for words in (("--unit", "0"), ("--unit", "nan"), ("--capacity", "-1"), ("--metric", "hops")):
        checks.same(f"refused words: {' '.join(words)}", run(SNDLIB, *words)[:2], (2, ""))


def pairs_by_reference(program, checks, stem, journal):
    """The requests of pairs of an example, of each kind."""
    with open(os.path.join(TOP, f"examples/{stem}.pairs"), encoding="ascii") as file:
        text = file.read()
    network, asked = publish(whole_batches(journal))[0][-1], [pairs.question(fields) for fields in records(text)]
    wanted = ["version 1", *(pairs.answer(network, 1, question) for question in asked)]
    status, out, err = program.run(["solve", "--pairs"], journal + text)
    checks.same(f"examples/{stem}.pairs", (status, out.decode().splitlines(), err), (0, wanted, b""))
    checks.same(f"the kinds of examples/{stem}.pairs", {kind for _, kind in asked}, set(pairs.KINDS))


def examples(program, checks):
    """The examples' rows, positions and requests are what their networks make; `routed` takes them, and each request has a route."""
    for name, words, sizes in (("europe.graphml", [], (28, 47, 28)), ("germany.sndlib", ["--requests", "requests"], (50, 89, 106))):
        stem = name.partition(".")[0]
        kept = {end: open(os.path.join(TOP, "examples", f"{stem}.{end}")).read() for end in ("journal", "places", "requests")}
        text = open(os.path.join(TOP, "examples", name)).read()
        status, rows, said, written = run(text, "--places", "places", *words, name="network")
        checks.same(f"examples/{name}", (status, rows, written), (0, kept["journal"], {it: kept[it] for it in written}))
        status, out, err = program.batch(kept["journal"], kept["requests"])
        replies = re.findall(rb"(?m)^ask \d+ v1 route ", out)
        checks.same(f"routed takes examples/{name}", (status, err, len(replies)), (0, b"", sizes[2]))
        pairs_by_reference(program, checks, stem, kept["journal"])
        checks.true(f"the sizes of examples/{name}", said.startswith(f"{sizes[0]} routers, {sizes[1]} circuits, "), said)
    edges = "".join(node(at) for at in range(50)) + "".join(edge(at % 50, (at + 1) % 50) for at in range(8192))
    status, out, err = program.solve(run(graphml(edges))[1].encode())
    checks.same("routed takes as many links as there may be", (status, out), (0, b"version 1\nversion 2\nversion 3\nversion 4\n"))


def imports(program, checks):
    from tools.units import kept, units  # which use what is above
    checks.parts((sndlib, zoo, refusals, units, kept, examples), program, checks)
