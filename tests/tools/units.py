"""Tests of the units, routing costs and router numbers of routed-tools import. The table says how each file is imported or refused."""
from tools.imports import KEYS, SNDLIB, both, edge, graphml, node, put, run

PAIR = """?SNDlib native format; type: network; version: 1.0
META (
  granularity = SINGLE
{meta})
NODES (
  A ( 0.00 0.00 )
  B ( 1.00 0.00 )
  C ( 2.00 0.00 )
)
LINKS (
  L1 ( A B ) 8.00 0.00 {one} 0.00 ( )
  L2 ( B C ) 16.00 0.00 {other} 0.00 ( )
)
DEMANDS (
  A_C ( A C ) 1 2.00 UNLIMITED
)
"""


def native(meta="", one="0.00", other="0.00"):
    return PAIR.format(meta=f"  {meta}\n" if meta else "", one=one, other=other)


def speed(number, unit=None, raw=None):
    data = {"LinkSpeed": number, "LinkSpeedUnits": unit, "LinkSpeedRaw": raw}
    return graphml(node("a") + node("b") + edge("a", "b", "".join(f'<data key="{name}">{it}</data>' for name, it in data.items() if it)))


def rows(one, other=None, metrics=(111, 111)):
    """The rows of a circuit, or of two, with these bytes per second."""
    first = both(1, 2, 0, metrics[0], one)
    return first + ("end,1,2\n" if other is None else both(2, 3, 2, metrics[1], other) + "end,1,4\n")


def ask(bandwidth):
    return f"ask,1,192.168.0.1,192.168.0.3,7,{bandwidth},0x0,0x0,0x0,\n"


# Of each file: its words, its rows or None where it is refused, its demand or None, and a line of standard error. A Mbit/s is 125,000 bytes
# per second; the metrics are 111 km, or 1 in GraphML, whose nodes have no position here.
TABLE = {
    "no unit": (native(), [], rows(1000000, 2000000), ask(250000),
                "no unit: one unit is taken as 1 Mbit/s, 125,000 bytes per second; --unit says another"),
    "Gbit/s": (native("unit = GBITPERSEC"), [], rows(10**9, 2 * 10**9), ask(250 * 10**6),
               "unit GBITPERSEC of the file: one unit is 125,000,000 bytes per second"),
    "bytes": (native("unit=MBYTEPERSEC time = 2005-02-14"), [], rows(8 * 10**6, 16 * 10**6), ask(2 * 10**6),
              "unit MBYTEPERSEC of the file: one unit is 1,000,000 bytes per second"),
    "a unit of calls": (native("unit = ERLANG"), [], None, None, "network: the unit ERLANG isn't known: "),
    "a unit that is two": (native("unit = MBPS"), [], None, None,
                           "network: the unit MBPS is bits in some files and bytes in others: write Mbit/s or MB/s, or give --unit BYTES"),
    "--unit in place of it": (native("unit = STM-1"), ["--unit", "19440000"], rows(155520000, 311040000), ask(38880000),
                              "unit STM-1 of the file isn't used: by --unit one unit is 1.944e+07 bytes per second"),
    "a routing cost of 0": (native("unit = KBITPERSEC", "0.00", "7.00"), [], rows(1000, 2000, (0, 7)), ask(250),
                            "routing cost 0: 1 links, whose metric is 0"),
    "small routing costs": (native("unit = KBITPERSEC", "0.01", "0.90"), [], rows(1000, 2000, (1, 1)), ask(250),
                            "rounded: 2 routing costs, such as 0.01 to 1"),
    "a routing cost that no row has": (native("", "1", "5e9"), [], None, None,
                                       "network: the routing cost between B and C is 5e+09, and a row has at most 4294967295"),
    "a capacity that no row has": (native("unit = TBITPERSEC").replace("16.00", "1e20"), [], None, None,
                                   "network: the capacity between B and C is 1.25e+31 bytes per second, "
                                   "and a row has at most 18446744073709551615"),
    "G alone": (speed("10", "G"), [], rows(1250000000, metrics=(1,)), None, "3 routers"),
    "Gbps in the speed": (speed("2.5 Gbps"), [], rows(312500000, metrics=(1,)), None, "3 routers"),
    "bytes of GraphML": (speed("10", "MB/s"), [], rows(10**7, metrics=(1,)), None, "3 routers"),
    "small letters": (speed("64", "kbit/s"), [], rows(8000, metrics=(1,)), None, "3 routers"),
    "powers of two": (speed("1", "Mibit/s"), [], rows(131072, metrics=(1,)), None, "3 routers"),
    "no unit of GraphML": (speed("800"), [], rows(100, metrics=(1,)), None,
                           "left out: unit of LinkSpeed, which is taken as bits per second, since there is none"),
    "an unknown unit": (speed("10", "Q"), [], None, None, "network: edge a b: the unit Q isn't known: "),
    "a unit of both": (speed("10", "GBPS"), [], None, None,
                       "network: edge a b: the unit GBPS is bits in some files and bytes in others: write Gbit/s or GB/s"),
    "two units": (speed("10 G", "M"), [], None, None, "network: edge a b: the speed 10 G has a unit, and LinkSpeedUnits is M"),
    "two speeds": (speed("10", "M", "8e9"), [], rows(10**9, metrics=(1,)), None,
                   "left out: LinkSpeed that differs from LinkSpeedRaw, which is taken"),
}


def units(program, checks):
    """Each file is imported as the table says, or refused by one line; `routed` takes the rows."""
    for name, (text, words, wanted, demand, line) in TABLE.items():
        status, found, said, written = run(text, *words, "--requests", "requests")
        lines = said.splitlines()
        if wanted is None:
            checks.true(f"refused: {name}", (status, found, written, len(lines)) == (1, "", {}, 1) and lines[0].startswith(line), said)
            continue
        checks.same(f"the rows of {name}", (status, found, written["requests"]), (0, wanted, demand or ""))
        checks.true(f"what is said of {name}", line in lines or line == "3 routers" and not any("LinkSpeed" in it for it in lines), said)
    status, out, _ = program.solve((rows(8, 8, (0, 7)) + "ask,1,192.168.0.1,192.168.0.3,7,1,0x0,0x0,0x0,\n").encode())
    checks.true("routed takes a metric of 0", status == 0 and out.startswith(b"version 1\nask 1 v1 route cost=7 hops=2 "), out)


def kept(_, checks):
    """A site keeps its router's number when another is added before it, and a new one gets the next number."""
    first = graphml(node("a", "A", (0, 0)) + node("c", "C, the third", (2, 0)) + edge("a", "c", '<data key="LinkSpeedRaw">8</data>'))
    more = graphml(node("b", "B", (1, 0)) + node("c", "C, the third", (2, 0)) + edge("b", "c", '<data key="LinkSpeedRaw">8</data>'))
    places = run(first, "--places", "places")[3]["places"]

    def keep(text, lines, *words):
        return run(text, "--keep", "/dev/stdin", *words, rows=lines)

    status, found, said, written = keep(more, places, "--places", "places")
    checks.same("the second and a third router", (status, found), (0, put(3, 0, 2, 1, 111, 1) + put(2, 1, 3, 0, 111, 1) + "end,1,2\n"))
    checks.same("their lines", written["places"].splitlines()[1:], ["192.168.0.3 0.0 0.0 B", "192.168.0.2 111.2 0.0 C, the third"])
    for line in ("new: the site B is the router 192.168.0.3", "gone: the site A, which was the router 192.168.0.1"):
        checks.true(line.partition(" ")[0], line in said.splitlines(), said)
    checks.same("the same file, kept", keep(first, places)[1], run(first)[1])
    for name, text, lines, why in (
            ("two sites of one name", first.replace("C, the third", "A"), places,
             "--keep: 2 sites have the name A, so none of them can be told from the file"),
            ("one name on two lines", first, places + "192.168.0.9 1 1 A\n", "--keep: line 4: the name A is there twice"),
            ("a line without an address", first, "A 1 1 A\n", "--keep: line 1: A is no address")):
        checks.same(f"refused: {name}", keep(text, lines), (1, "", f"network: {why}\n", {}))
    checks.same("SNDlib's numbers, kept", keep(SNDLIB, "192.168.0.7 0 0 B 2\n")[1].splitlines()[0][:47],
                "put,192.168.0.8,10.0.0.0,192.168.0.7,10.0.0.1,1")
    checks.true("the table has both formats", sum(text.startswith("?") for text, *_ in TABLE.values()) >= 5
                and sum(KEYS in text for text, *_ in TABLE.values()) >= 5)
