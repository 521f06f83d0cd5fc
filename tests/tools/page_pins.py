"""Pinned asks of `routed-tools page`, many pages at once, and what if."""
import os
import signal
import sys
import time

from checks import TOP
from program.serving import PATIENCE
from reference import formats
from tools.paged import BERLIN, BONN, GERMANY, Events, paged
from tools.reading import eventually, figures_of

from routed.page import page, picture, pins

GEOMETRY = picture.CHILD[-1].encode()
PAGES, SEEN = 100, 10  # and seconds until the end of one is seen
SHORT = [sys.executable, "-c", f"import sys; sys.path.insert(0, {os.path.join(TOP, 'python')!r}); from routed.page import whatif; "
         "whatif.IDLE = 15; from routed.tools import main; sys.exit(main(['page', *sys.argv[1:]]))"]
PUTS = [row for row in GERMANY.splitlines() if row.startswith("put")]
ROUTERS = sorted({row.split(",")[1] for row in PUTS})


def network_without(keys=(), routers=()):
    """The example without some links and routers, as the reference has it."""
    rows = [row for row in PUTS if tuple(row.split(",")[1:3]) not in keys and not set(routers) & {row.split(",")[1], row.split(",")[3]}]
    return formats.Network().after([formats.row(row.split(",")) for row in rows])


def cost_of(network, head, tail):
    """The cost of the least route and the number of its links; None for both where there is none."""
    walk = network.least(formats.row(f"ask,1,{head},{tail},7,0,0x0,0x0,0x0,".split(","))[1])
    return (sum(link["metric"] for link in walk), len(walk)) if walk else (None, None)


def circuit_of(key):
    """Both links of a circuit, by the key of one: their rows."""
    row = next(row for row in PUTS if " ".join(row.split(",")[1:3]) == key)
    back = next(other for other in PUTS if other.split(",")[1:5] == [*row.split(",")[3:5], *row.split(",")[1:3]])
    return row, back


def drops_of(key):
    return [f"drop,{','.join(row.split(',')[1:3])}" for row in circuit_of(key)]


def pinned(program, checks, _):
    """A pinned ask through a failure and back; equal ones of several pages are asked once, and not more than twice in a second."""
    with paged(program.path, GERMANY) as at:
        one, other = Events(at), Events(at)
        names = [events.until("hello")["page"] for events in (one, other)]
        ids = [at.call("pin", page=name, head=BERLIN, tail=BONN)[1]["pin"] for name in names]
        checks.same("equal asks are one", ids[0], ids[1])
        first = one.until("pin")
        checks.same("its first answer", (first["cost"], first["hops"], len(first["history"]), first["form"]["head"]),
                    (*cost_of(network_without(), BERLIN, BONN), 1, BERLIN))
        key = first["links"][0]
        at.publish(drops_of(key))
        failed = one.until("pin", lambda it: it["version"] == 2)
        gone = {tuple(row.split(",")[1:3]) for row in circuit_of(key)}
        checks.same("behind a failure", (failed["cost"], failed["hops"]), cost_of(network_without(gone), BERLIN, BONN))
        checks.same("its history", [(it["since"], it["cost"], it["links"]) for it in failed["history"]],
                    [(1, first["cost"], first["links"]), (2, failed["cost"], failed["links"])])
        at.publish("")
        same = one.until("pin", lambda it: it["version"] == 3)
        checks.same("a version that changes nothing", same["history"], failed["history"])
        at.publish(list(circuit_of(key)))
        back = one.until("pin", lambda it: it["version"] == 4)
        checks.same("and back", [(it["since"], it["links"]) for it in back["history"]],
                    [(1, first["links"]), (2, failed["links"]), (4, first["links"])])
        checks.same("the other page is told the same", other.until("pin", lambda it: it["version"] == 4)["history"], back["history"])
        began, before = time.monotonic(), sum_of(at, "routed_asks_total")
        for _ in range(20):
            at.publish("")
            time.sleep(0.1)
        newest = one.until("pin", lambda it: it["version"] == at.version)
        took, count = time.monotonic() - began, sum_of(at, "routed_asks_total") - before
        checks.true("ten versions a second: the newest is asked", newest is not None)
        checks.true("and at most two a second are", 1 < count <= took / 0.5 + 2, (count, took))
        checks.same("unpinned", at.call("unpin", page=names[0], pin=str(ids[0])), (200, {"pin": ids[0]}))
        at.publish("")
        other.until("pin", lambda it: it["version"] == at.version)
        checks.same("the page isn't told any more", one.until("pin", lambda it: it["version"] == at.version, 0.5), None)
        checks.same("what is no pin", [at.call("unpin", page=names[0], pin=text)[0] for text in ("", "x", "-1", "9" * 30)], [400] * 4)
        checks.same("of no page", [at.call("pin", page=text, head=BERLIN, tail=BONN)[0] for text in ("", "x", names[0][:-1])], [404] * 3)
        for events in (one, other):
            events.close()
        eventually(checks, "nothing is pinned once all pages have gone", lambda: at.figures()["routed_page_pinned", None], 0)
        third = Events(at)
        at.call("pin", page=third.until("hello")["page"], head=BERLIN, tail=BONN)
        checks.same("a page that comes back finds the history", third.until("pin")["history"][0], back["history"][0])
        third.close()


def sum_of(at, name):
    return sum(number for (each, _), number in figures_of(at.room).items() if each == name)


def bounded(program, checks, _):
    """At most 32 pins of a page and 256 of all, whose answers are asked a few at a time; pages that have gone give place."""
    with paged(program.path, GERMANY) as at:
        draw = [(head, tail) for head in ROUTERS for tail in ROUTERS if head != tail]
        pages = [Events(at) for _ in range(9)]
        names = [events.until("hello")["page"] for events in pages]
        found = [[at.call("pin", page=name, head=head, tail=tail)[0] for head, tail in draw[32 * number:32 * number + 33]]
                 for number, name in enumerate(names)]
        checks.same("pins of eight pages", found[:8], [[200] * 32 + [409]] * 8)
        checks.same("and of a ninth", found[8], [409] * 33)
        checks.same("what is there is pinned by another page, too", at.call("pin", page=names[8], head=draw[0][0], tail=draw[0][1])[0], 200)
        version = at.publish(drops_of(" ".join(PUTS[0].split(",")[1:3])))
        end, told = time.monotonic() + PATIENCE, set()
        while len(told) < 32 and time.monotonic() < end:
            if answer := pages[0].until("pin", lambda it: it["version"] == version, 1):
                told.add(answer["pin"])
        checks.same("each pin is answered at a version", (len(told), at.figures()["routed_page_pinned", None]), (pins.EACH, pins.MOST))
        pages[0].close()
        eventually(checks, "a page has gone", lambda: at.figures()["routed_page_open", None], 8)
        checks.same("its places are free, but for what is pinned elsewhere",
                    [at.call("pin", page=names[8], head=head, tail=tail)[0] for head, tail in draw[288:320]], [200] * 31 + [409])
        for events in pages[1:]:
            events.close()


def crowded(program, checks, _):
    """100 pages at once, and more than there is room for."""
    with paged(program.path, GERMANY) as at:
        pages = [Events(at) for _ in range(PAGES)]
        checks.same("100 pages are told the network", {events.until("network")["version"] for events in pages}, {1})
        version = at.publish("node,192.168.0.3,0")
        checks.same("and the next version", [events.until("version")["version"] for events in pages], [version] * PAGES)
        more = [Events(at) for _ in range(page.MOST_PAGES - PAGES)]
        checks.same("as many as there is room for", {events.until("network")["version"] for events in more}, {version})
        checks.same("and one more", at.get(f"/events?token={at.token}")[0], 503)
        checks.same("asks go on", at.call("ask", head=BERLIN, tail=BONN)[0], 200)
        for events in pages:
            events.close()
        eventually(checks, "all have gone", lambda: at.figures()["routed_page_open", None], len(more))
        one, began = Events(at), time.monotonic()
        checks.same("there is room again", one.until("network")["version"], version)
        one.until("picture")
        one.close()
        eventually(checks, "one that has been told all goes", lambda: at.figures()["routed_page_open", None], len(more))
        checks.true("which is seen before anything else is told", time.monotonic() - began < SEEN, time.monotonic() - began)
        for events in more:
            events.close()


# ---- what if


def untouched(at):
    """What of the server no page may change: its journal, and figures of what it took."""
    with open(at.journal, encoding="ascii") as file:
        journal = file.read()
    found = figures_of(at.room)
    return journal, {key: number for key, number in found.items() if not key[0].startswith(("process_", "routed_asks", "routed_ask_"))
                     and not key[0].endswith("_age_seconds") and key[1] != "metrics"}


def supposed(program, checks, _):
    """Circuits and routers are out on the page alone, and the answers are those of the reference."""
    with paged(program.path, GERMANY) as at:
        one, other = Events(at), Events(at)
        mine, theirs = (events.until("hello")["page"] for events in (one, other))
        pairs = [(BERLIN, BONN), ("192.168.0.10", "192.168.0.20"), ("192.168.0.30", "192.168.0.44")]
        ids = [at.call("pin", page=mine, head=head, tail=tail)[1]["pin"] for head, tail in pairs]
        answers = {}
        while len(answers) < 3:
            told = one.until("pin")
            answers[told["pin"]] = told
        before, asked = untouched(at), sum_of(at, "routed_asks_total")
        key, leaf = answers[ids[0]]["links"][0], BONN
        gone = {tuple(row.split(",")[1:3]) for row in circuit_of(key)}
        both = [" ".join(it) for it in sorted(gone)]
        for circuits, routers in (([key], []), ([], [leaf]), ([key], ["192.168.0.12"]), (both, [])):
            status, found = at.call("whatif", page=mine, circuit=circuits, router=routers)
            network = network_without(gone if circuits else (), routers)
            wanted = [cost_of(network, *pair) for pair in pairs]
            told = [(it["pin"], it["after"]["cost"], it["after"]["hops"]) for it in found["pins"]]
            checks.same(f"without {circuits} {routers}", (status, told), (200, [(number, *costs) for number, costs in zip(ids, wanted)]))
            had = [cost_of(network_without(), *pair)[0] for pair in pairs]
            effects = ["lost" if cost is None else "longer" if cost > was else None for (cost, _), was in zip(wanted, had)]
            told = [it["effect"] if effect else None for it, effect in zip(found["pins"], effects)]
            checks.same(f"their effects {circuits} {routers}", told, effects)
            left = {tuple(map(formats.address_text, key)) for key in network.links}
            wanted = {tuple(row.split(",")[1:3]) for row in PUTS} - left
            checks.same("what is out", {tuple(name.split(" ")) for name in found["out"]}, wanted)
        found = [at.call("whatif", page=mine, **out)[1]["pins"] for out in ({"circuit": key}, {"router": leaf})]
        checks.true("a route is longer, and one is lost", {"longer", "lost"} <= {it["effect"] for its in found for it in its}, found)
        checks.same("the server's journal and figures", untouched(at), before)
        checks.same("and it was asked nothing", sum_of(at, "routed_asks_total"), asked)
        checks.same("a second page", at.call("whatif", page=theirs, circuit=key)[0], 409)
        for fields in ({"circuit": "1.1.1.1 2.2.2.2"}, {"circuit": ""}, {"circuit": "x"}, {"router": ["1.1.1.1"] * 65}):
            checks.same(f"{str(fields)[:40]}", at.call("whatif", page=mine, **fields)[0], 400)
        version = at.publish(drops_of(key))
        checks.same("at the newest version", at.call("whatif", page=mine, router=leaf)[1]["version"], version)
        numbers = programs_of(at.child.pid)
        os.kill(numbers[-1], signal.SIGKILL)
        eventually(checks, "a program that was killed is told of, or replaced", lambda: at.call("whatif", page=mine, router=leaf)[0], 200)
        checks.same("given back", at.call("whatif", page=mine), (200, {"version": version, "out": [], "pins": []}))
        checks.same("no program runs", (programs_of(at.child.pid), at.figures().get(("process_open_fds", "solve"))), ([], None))
        checks.same("a second page has it then", at.call("whatif", page=theirs, router=leaf)[0], 200)
        other.close()
        eventually(checks, "it ends with its page", lambda: programs_of(at.child.pid), [])
        one.close()


def programs_of(number):
    """The children of a page but the one that lays out its picture, which on a busy machine takes as long as these tests."""
    with open(f"/proc/{number}/task/{number}/children", encoding="ascii") as file:
        return [word for word in map(int, file.read().split()) if GEOMETRY not in words_of(word)]


def words_of(number):
    """The words of a process's command; none of one that has ended."""
    try:
        with open(f"/proc/{number}/cmdline", "rb") as file:
            return file.read().split(b"\0")
    except OSError:
        return []


def idle(program, checks, _):
    """The program ends where nobody uses it, and another page may have it."""
    with paged(program.path, GERMANY, tool=SHORT) as at:
        one, other = Events(at), Events(at)
        mine, theirs = (events.until("hello")["page"] for events in (one, other))
        checks.same("one page has it", [at.call("whatif", page=name, router=BONN)[0] for name in (mine, theirs)], [200, 409])
        eventually(checks, "until it was idle", lambda: programs_of(at.child.pid), [])
        checks.same("then another may", at.call("whatif", page=theirs, router=BONN)[0], 200)
        for events in (one, other):
            events.close()


pins_and_what_if = pinned, bounded, crowded, supposed, idle
