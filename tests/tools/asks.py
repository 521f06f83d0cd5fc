"""`routed-tools ask --why`: the causes of drawn requests without a route, judged by tests/reference/formats.py."""
import collections
import json
import os
import random
import re
import signal
import subprocess
import tempfile

from checks import TOOLS, TOP
from program.pages import BLOCK, kept_files
from program.serving import PATIENCE
from reference import formats
from tools.fronts import Connection, Front
from tools.reading import PAIR, seen

from routed.ask.ask import answered
from routed.ask.reasons import Asker
from routed.ask.telling import Telling
from routed.client import Client
from routed.model.groups import Groups
from routed.model.journals import read_database
from routed.model.names import Names, NamesRefused
from routed.model.rows import Request

REQUESTS, NETWORKS, CORE = 400, 4, 12
BITS = 5  # groups of the core's links; a link is in at least one of the first three
FREE = [40, 70, 100]  # unreserved, at each priority
KINDS = ("bandwidth", "exclude-any", "include-any", "include-all", "hop")
APART = ("marked", "one-way", "island", "unknown")
OTHER = PAIR.splitlines()[0].replace("10.0.12.1", "10.0.99.1")  # a link whose reverse leads to another interface
NONE = {"bandwidth": 0, "exclude_any": 0, "include_any": 0, "include_all": 0, "hops": []}


def router(number):
    return f"10.0.0.{number}"


class Drawn:
    """A network: a core of many circuits, a router behind a marked one, one behind a circuit with one direction, and an island."""

    def __init__(self, draw, number):
        self.draw, self.rows, self.count = draw, [], 0
        for at in range(1, CORE + 1):
            for other in {at % CORE + 1, draw.randrange(1, CORE + 1)} - {at}:
                self.circuit(at, other)
        self.circuit(draw.randrange(1, CORE + 1), 21)
        self.circuit(21, 22)
        self.rows.append(f"node,{router(21)},0")
        self.circuit(draw.randrange(1, CORE + 1), 31, draw.choice([1, 2]))
        self.circuit(41, 42)
        self.number, self.text = number, ""

    def circuit(self, one, other, directions=3):
        """A circuit with both directions, or with the first or the second alone."""
        self.count += 1
        ends = [(router(one), f"172.16.{self.count}.1"), (router(other), f"172.16.{self.count}.2")]
        group = self.draw.choice([1, 2, 4]) | self.draw.randrange(1 << BITS)
        for bit, (near, far) in ((1, ends), (2, ends[::-1])):
            if directions & bit:
                free = ",".join(str(self.draw.choice(FREE)) for _ in range(8))
                self.rows.append(f"put,{','.join(near + far)},{self.draw.randrange(1, 9)},0x{group:x},{free}")

    def network(self):
        return formats.Network().after([formats.row(row.split(",")) for row in self.rows])


def has_route(network, request):
    return not isinstance(network.outcome(request), str)


def constraint(draw, network, kind, request):
    """A value of a constraint by which, alone, the request has no route; None where none was found."""
    for _ in range(20):
        if kind == "bandwidth":
            value = {"bandwidth": draw.choice([41, 71, 101, 10 ** 4])}
        elif kind == "hop":
            value = {"hops": [draw.choice([(formats.address_number("192.0.2.9"), 32, True), (formats.address_number("10.9.0.0"), 16, False),
                                           (formats.address_number(router(draw.randrange(1, CORE + 1))), 32, False)])]}
        else:
            mask = 1 << draw.randrange(BITS + 2) if kind == "include-any" else draw.randrange(1, 1 << BITS + 1)
            value = {kind.replace("-", "_"): mask}
        if not has_route(network, {**request, **NONE, **value}):
            return value
    return None


def together(draw, network, request):
    """A bandwidth and groups to exclude, each of which leaves a route, but not both; None twice where none were found."""
    for _ in range(20):
        values = [{"bandwidth": draw.choice([41, 71])}, {"exclude_any": 1 << draw.randrange(3) | 1 << draw.randrange(BITS)}]
        is_none = not has_route(network, {**request, **values[0], **values[1]})
        if is_none and all(has_route(network, {**request, **value}) for value in values):
            return values
    return [None, None]


def drawn_request(draw, network):
    """A request in the core without a route, the kinds of its one or two causes, and whether each of two is enough by itself, or only
    both together. Hops or a small bandwidth that keep no route away may be beside those that are enough."""
    while True:
        head, tail = (formats.address_number(router(at)) for at in draw.sample(range(1, CORE + 1), 2))
        request = {"id": 0, "from": head, "to": tail, "setup": draw.randrange(8), **NONE}
        kinds, is_each = draw.sample(KINDS, draw.choice([1, 1, 2])), draw.random() < 0.8
        if is_each:
            values = [constraint(draw, network, kind, request) for kind in kinds]
        else:
            kinds, values = ["bandwidth", "exclude-any"], together(draw, network, request)
        if None in values:
            continue
        for value in values:
            request.update(value)
        if has_route(network, request):
            continue
        others = {"bandwidth": draw.choice([0, 1])} if "bandwidth" not in kinds else {}
        if is_each and "hop" not in kinds and draw.random() < 0.5:
            others["hops"] = [(formats.address_number(router(draw.randrange(1, CORE + 1))), 32, draw.random() < 0.8)
                              for _ in range(draw.choice([1, 2]))]
            if has_route(network, {**request, **{name: NONE[name] for value in values for name in value}, **others}):
                request.update(others)
        return request, sorted(kinds), is_each


def row_of(request):
    """The request as the tools have it."""
    hops = " ".join(f"{formats.address_text(address)}/{bits}{'l' if is_loose else 's'}" for address, bits, is_loose in request["hops"])
    return Request(1, formats.address_text(request["from"]), formats.address_text(request["to"]), request["setup"], request["bandwidth"],
                   request["exclude_any"], request["include_any"], request["include_all"], hops)


def without(request, parts):
    """A request without the constraints that the tool names."""
    left, gone = dict(request), {part["place"] - 1 for part in parts if part["constraint"] == "hop"}
    for part in parts:
        name = part["constraint"].replace("-", "_")
        if name == "bandwidth":
            left[name] = part["most"]
        elif name != "hop":
            left[name] &= ~sum(1 << int(group) for group in part["groups"])
    left["hops"] = [hop for at, hop in enumerate(left["hops"]) if at not in gone]
    return left


def judged(network, request, kinds, is_each, told):
    """What is wrong with the reasons that are told of a request."""
    if told["outcome"] != "none" or not told["why"]:
        return f"no reason: {told}"
    for reason in told["why"]:
        parts = reason["constraints"]
        walk = network.outcome(without(request, parts))
        if isinstance(walk, str) or (sum(link["metric"] for link in walk), len(walk)) != (reason["cost"], reason["hops"]):
            return f"another route without {parts}: {walk}"
        for part in parts:
            if has_route(network, without(request, [other for other in parts if other is not part])):
                return f"{part} can be put back"
            more = without(request, [{**part, "most": part["most"] + 1} if other is part else other for other in parts]) \
                if part["constraint"] == "bandwidth" else None
            if more and has_route(network, more):
                return f"more than {part['most']} has a route"
    named = {tuple(sorted({part["constraint"] for part in reason["constraints"]})) for reason in told["why"]}
    wanted = {tuple(kinds)} if is_each else {(kind,) for kind in kinds}
    return None if named == wanted else f"{named} is named, and not {wanted}"


def apart(draw, network, told, ask):
    """What is wrong with what keeps two ends apart."""
    found, request = told.get("apart", {}), formats.row(ask.text().split(","))[1]
    if "islands" in found:
        beside = collections.defaultdict(set)
        for link in network.links.values():
            beside[link["from"]].add(link["to"])
            beside[link["to"]].add(link["from"])
        for end, named in zip((request["from"], request["to"]), found["islands"]):
            island, queue = {end}, [end]
            for one in queue:
                queue += beside[one] - island
                island |= beside[one]
            if sorted(map(formats.address_number, named)) != sorted(island):
                return f"an island has other routers: {named}"
        return None if has_route(network, request) is False else "a route"
    marks = [formats.address_number(one) for one in found["marked"]]
    links = [(formats.address_number(it["neighbor"]), formats.address_number(it["remote"]), formats.address_number(it["router"]),
              formats.address_number(it["interface"])) for it in found["one-way"]]

    def after(some_marks, some_links):
        changes = [("node", {"router": mark, "transit": True}) for mark in some_marks]
        changes += [("put", {"from": one[0], "local": one[1], "to": one[2], "remote": one[3], "metric": 1, "group": 0, "free": [0] * 8})
                    for one in some_links]
        return network.after(changes)

    if not has_route(after(marks, links), request):
        return f"no route without {found}"
    for one in marks + links:
        if has_route(after([it for it in marks if it != one], [it for it in links if it != one]), request):
            return f"{one} can be put back"
    return None


def ends_of(draw, kind):
    """The ends of a request that this keeps apart."""
    inner, far = draw.randrange(1, CORE + 1), {"marked": 22, "one-way": 31, "island": draw.choice([41, 42]), "unknown": 99}[kind]
    ends = [router(inner), router(far)]
    return ends if draw.random() < 0.5 else ends[::-1]


def drawn_whys(program, checks, room):
    """Each reason of requests without a route is right, least, and an answer of the server."""
    draw, rows, lines, seen, faults = random.Random(77), [], [], collections.Counter(), []
    with Front(program, room) as front:
        updating, asked, before = Connection(front.updates), 0, []
        with Client(front.ask) as client:
            asker = Asker(client, told=lambda row, line: (rows.append(row), lines.append(line)))
            telling = Telling(Names(), Groups())
            for version in range(1, NETWORKS + 1):
                drawn = Drawn(draw, version)
                kept = {",".join(row.split(",")[:3]) for row in drawn.rows}
                gone = [f"drop,{','.join(row.split(',')[1:3])}" for row in before if row.startswith("put") and
                        ",".join(row.split(",")[:3]) not in kept]
                updating.talk("".join(f"{row}\n" for row in drawn.rows + gone) + f"end,{version},{len(drawn.rows + gone)}\n")
                network, before = drawn.network(), drawn.rows
                with open(front.journal, "rb") as file:
                    database = read_database(file.read())
                for at in range(REQUESTS // NETWORKS):
                    asked += 1
                    if at % 5:
                        request, kinds, is_each = drawn_request(draw, network)
                        told = json.loads(telling.json(answered(asker, row_of(request), True, None)))
                        fault = judged(network, request, kinds, is_each, told)
                    else:
                        is_each, kinds = True, [APART[at // 5 % len(APART)]]
                        ask = Request(1, *ends_of(draw, kinds[0]))
                        told = json.loads(telling.json(answered(asker, ask, True, lambda _: database)))
                        if kinds == ["unknown"]:
                            fault = None if told["outcome"] in ("unknown-from", "unknown-to") else f"known: {told}"
                        else:
                            fault = apart(draw, network, told, ask) if told["why"] == [] else f"a reason: {told}"
                            named = "island" if "islands" in told.get("apart", {}) else "marked" if told["apart"]["marked"] else "one-way"
                            fault = fault or (None if named == kinds[0] else f"{named} and not {kinds}")
                    seen[(" and " if is_each else " with ").join(kinds)] += 1
                    if fault:
                        faults.append((told["row"], kinds, fault))
            checks.same("reasons that are wrong", faults[:3], [])
            checks.same("requests", asked, REQUESTS)
            pairs = [sum(count for name, count in seen.items() if word in name) for word in (" and ", " with ")]
            checks.true("each cause was drawn, and pairs of them", min(*pairs, *(seen[kind] for kind in (*KINDS, *APART))) > 9, seen)
        found = program.audit(front.kept(), "".join(f"{row}\n" for row in rows), "".join(f"{line}\n" for line in lines))
        checks.same(f"{len(rows)} asks by routed audit", found[:2], (0, f"good={len(rows)} faults=0\n".encode()))


# ---- the page, the commands, and files of names


def page(program, checks, room):
    """The commands of the page, typed one after the other, print what it quotes."""
    with open(os.path.join(TOP, "docs/run/ASK.md"), encoding="utf-8") as file:
        text = file.read()
    quotes = list(re.finditer(r"<!-- printed by the commands above -->\n\n((?:    .*\n)+)", text))
    typed = [re.sub("(?m)^    ", "", BLOCK.findall(text[:quote.start()])[-1]).replace("crates/routed/out/routed ", f"'{program.path}' ")
             for quote in quotes]
    script = "".join(f"echo @@@; {{\n{commands}}} 2>&1\n" for commands in typed) + "kill $!\n"
    before = set(kept_files())
    ran = subprocess.run(["timeout", str(5 * PATIENCE), "sh", "-c", script], cwd=TOP, capture_output=True, text=True,
                         env={**os.environ, "TMPDIR": room, "ROUTED_PROGRAM": program.path})
    for quote, commands, printed in zip(quotes, typed, [*ran.stdout.split("@@@\n")[1:], *[None] * len(quotes)]):
        checks.same(f"ASK.md: {commands}", printed, re.sub("(?m)^    ", "", quote[1]))
    checks.same("its commands", (len(quotes) > 7, ran.stderr), (True, ""))
    checks.same("they leave no file", sorted(set(kept_files()) - before), [])


def tool(name, *words, rows=None, **around):
    ran = subprocess.run([TOOLS, name, *words], input=rows, capture_output=True, text=True, timeout=PATIENCE,
                         env={**{key: value for key, value in os.environ.items() if key != "ROUTED_NAMES"}, **around})
    return ran.returncode, ran.stdout, ran.stderr


def commands(program, checks, room):
    """What `ask` sends for its words, in JSON and by names; what it refuses; and its answers at each version."""
    names, groups = os.path.join(room, "names"), os.path.join(room, "groups")
    for path, text in ((names, "1.1.1.1 One\n# x\n2.2.2.2 1 2 Two  Too\n"), (groups, "3 gold\n31 lead\n")):
        with open(path, "w", encoding="utf-8") as file:
            file.write(text)
    words = ["--names", names, "--groups", groups]
    with seen(program, room, "--show", os.path.join(room, "show")) as front:
        updating = Connection(front.updates)
        updating.talk(PAIR + "end,1,2\n")
        for more, row in (([], "7,0,0x00000000,0x00000000,0x00000000,"),
                          (["--bandwidth", "0.001k", "--setup", "3"], "3,1,0x00000000,0x00000000,0x00000000,"),
                          (["--bandwidth", "9k", "--exclude", "gold,4"], "7,1125,0x00000018,0x00000000,0x00000000,"),
                          (["--bandwidth", "3B", "--include-any", "lead", "--include-all", "0"], "7,3,0x00000000,0x80000000,0x00000001,"),
                          (["--via", "Two Too:strict,10.0.0.0/8,10.0.12.1:loose"],
                           "7,0,0x00000000,0x00000000,0x00000000,2.2.2.2/32s 10.0.0.0/8l 10.0.12.1/32l")):
            status, out, err = tool("ask", front.ask, "One", "Two Too", *words, *more)
            checks.same(f"the row of ask {more}", (status, out.partition("\n")[0], err), (0, f"ask,1,1.1.1.1,2.2.2.2,{row}", ""))
        for more, line in ((["--bandwidth", "10"], "ask: '10' is no bandwidth: "), (["--via", "Three"], "ask: 'Three' is no address, "),
                           (["--exclude", "32"], "ask: there is no group '32': "),
                           (["--via", ",".join(["One"] * 8)], "ask: a request has at most 7"),
                           (["--names", groups], f"ask: {groups}: line 1: '3' is no address; a line is an address and its name\n"),
                           (["--bandwidth", "99999999999999999999G"], "ask: '99999999999999999999G' is more than 2^64 - 1")):
            status, out, err = tool("ask", front.ask, "One", "Two Too", *words, *more)
            checks.same(f"ask {more}", (status, out, err[:len(line)]), (2, "", line))
        checks.same("two equal ends", tool("ask", front.ask, "One", "1.1.1.1", *words), (2, "", "ask: FROM and TO are both 1.1.1.1\n"))
        checks.same("no such place", tool("ask", "./absent", "1.1.1.1", "2.2.2.2"), (
            1, "", "ask: ./absent: No such file or directory; start the server, or give the place of one that runs\n"))
        told = json.loads(tool("ask", front.ask, "One", "Two Too", "--json", "--show", os.path.join(room, "show"), ROUTED_NAMES=names)[1])
        checks.same("the table in JSON, with the variable's names", [(it["router_name"], it["interface"], it["neighbor_name"], it["metric"],
                                                                      it["unreserved"]) for it in told["route"]],
                    [("One", "10.0.12.1", "Two Too", 10, 1000)])
        status, out, _ = tool("ask", front.ask, "1.1.1.1", "10.0.12.2", "--why", "--show", os.path.join(room, "show"))
        checks.same("an unknown end", (status, out.splitlines()[1:]), (0, [
            "ask 1 v1 unknown-to", "why: version 1 has no router 10.0.12.2; this is the address of an interface of 2.2.2.2"]))
        at_versions(checks, room, front, updating)
        rows = "ask,7,One,Two Too,7,0,0x0,0x0,0x0,\nask,8,One,Three,7,0,0x0,0x0,0x0,\n"
        printed = re.sub(r"row \d+", "row N", tool("connect", front.ask, "--names", names, rows=rows)[1])
        checks.same("connect takes names", printed, "ask 7 v3 none\nrow N refused: address 4\n")
        checks.same("and adds names", tool("connect", os.path.join(room, "show"), "--names", names, rows="snapshot\n")[1].splitlines()[1],
                    OTHER.replace("0x1,", "0x00000001,") + "  # One, Two Too")


def at_versions(checks, room, front, updating):
    """`ask --versions` prints each answer that differs."""
    words = [TOOLS, "ask", front.ask, "1.1.1.1", "2.2.2.2", "--bandwidth", "8k", "--versions", os.path.join(room, "watch")]
    with subprocess.Popen(words, stdout=subprocess.PIPE, text=True) as child:
        first = child.stdout.readline() + child.stdout.readline()
        updating.talk("end,2,0\n")
        updating.talk(f"drop,1.1.1.1,10.0.12.1\n{OTHER}\nend,3,2\n")
        rest = [child.stdout.readline() for _ in range(3)]
        child.send_signal(signal.SIGINT)
        checks.same("its status after Ctrl-C", child.wait(PATIENCE), 130)
    checks.true("an answer", first.endswith(" hops=1 again=no ero=000c140101080a000c022000\n"), first)
    checks.true("the next that differs", re.fullmatch(r"version 3: none; version [12]: cost=10 hops=1\n", rest[0]), rest)
    checks.true("its line", rest[2].endswith(" v3 none\n"), rest)


def files_of_names(_, checks, room):
    """Files of names that are read, and each line that is refused."""
    path = os.path.join(room, "names")

    def read(data):
        with open(path, "wb") as file:
            file.write(data)
        return Names.read(path)

    names = read("\ufeff# a comment\n\n1.1.1.1\tSão  Paulo 2\n2.2.2.2 -1.5 3e2 Two\r\n3.3.3.3 1 2\n4.4.4.4 7 up\n".encode())
    checks.same("names", names.names, {"1.1.1.1": "São Paulo 2", "2.2.2.2": "Two", "4.4.4.4": "7 up"})
    checks.same("their addresses", [names.address_of(text) for text in ("São Paulo 2", "Two", "9.9.9.9", "Three")],
                ["1.1.1.1", "2.2.2.2", "9.9.9.9", None])
    checks.same("an address without a name", names.name_of("3.3.3.3"), "3.3.3.3")
    for name in ("abilene", "europe", "germany", "nsfnet"):
        checks.true(f"{name}.places", len(Names.read(os.path.join(TOP, f"examples/{name}.places")).names) > 10)
    for data, words in ((b"1.1.1.1 A\n2.2.2.2 A\n", "line 2: A is on line 1, too"),
                        (b"1.1.1.1 A\n1.1.1.1 B\n", "line 2: 1.1.1.1 is on line 1, too"),
                        (b"1.1.1.1 A, B\n", "line 1: a name has no comma"),
                        (b"1.1.1.1 10.2\n", "line 1: the name 10.2 looks like an address"),
                        (b"1.1.1.1 10.0.0.0/8\n", "line 1: the name 10.0.0.0/8 looks like an address"),
                        (b"#\n1.1.1.1\n", "line 2: 1.1.1.1 has no name behind it"),
                        (b"1.1.1.256 A\n", "line 1: '1.1.1.256' is no address; a line is an address and its name"),
                        (b"1.1.1.1 \xff\n", "line 1: the bytes are no UTF-8"),
                        (b"1.1.1.1 \x1b[2J\n", "line 1: the line has a character that can't be printed")):
        try:
            checks.fail(f"{data} is read: {read(data).names}")
        except NamesRefused as fault:
            checks.same(f"names of {data}", str(fault), f"{path}: {words}")
    for data, words in ((b"32 gold\n", "'32' is no bit from 0 to 31; a line is a bit and its name"),
                        (b"1 7\n", "a name is wanted behind 1, which has no comma and isn't a number"),
                        (b"1 gold\n2 gold\n", "2 or gold is on an earlier line, too")):
        with open(path, "wb") as file:
            file.write(data)
        try:
            checks.fail(f"{data} is read: {Groups.read(path).names}")
        except NamesRefused as fault:
            checks.same(f"groups of {data}", str(fault), f"{path}: line {data.count(10)}: {words}")


def asks(program, checks):
    with tempfile.TemporaryDirectory() as room:
        checks.parts_in(room, (drawn_whys, page, commands, files_of_names), program, checks)
