"""Tests of routed-tools sweep and routed-tools join: failures worked by hand, failures by tests/reference/formats.py, several jobs, parts,
and what is refused."""
import contextlib
import hashlib
import os
import pty
import re
import subprocess
import tempfile
import time

from checks import TOOLS, TOP
from reference.formats import address_number, address_text
from tools.drawn_sweeps import compared, object_of, streams
from tools.partners import partners
from tools.ring import A, AB, AD, ASKS, B, BC, BEFORE, C, CD, D, DROPS, FIRST, HANGS, MASKS, OF_CIRCUITS, OF_PAIRS, OF_ROUTERS, RING
from tools.ring import SWEEP, THIRD, ask, circuit, facts, journal, link, sweep, wrapped

from routed.sweep.failures import Network


PARTS = "give what sweep --part I/N printed, for I from 1 to N"


def ring(program, checks):
    """A ring of four routers, each failure worked by hand."""
    for words, wanted in (((), OF_CIRCUITS), (("--fail", "routers"), OF_ROUTERS)):
        checks.same(f"a ring {words}", sweep(program.path, RING, ASKS, *words), (0, BEFORE + wanted, ""))
    status, out, err = sweep(program.path, RING, ASKS, "--fail", "pairs")
    found = "".join(line for line in out.splitlines(keepends=True) if re.match(r"scenario \d+ (out|lost=)", line))
    checks.same("pairs of a ring", (status, found, err), (0, OF_PAIRS, ""))
    checks.same("the pairs' last line", out.splitlines()[-1:], ["scenarios=6 lost=6 longer=1 overbooked=0"])
    again = RING + "drop,3.3.3.3,10.0.34.3\ndrop,4.4.4.4,10.0.34.4\nend,2,2\n" + circuit(3, 4) + "end,3,2"
    quoted = again.replace(A, f'"{A}"').replace("\n", "\r\n")
    wanted = (0, BEFORE.replace("version=1", "version=3") + OF_CIRCUITS, "")
    found = sweep(program.path, quoted, ASKS, "--fail", "circuits")
    checks.same("the last version, with quotes, carriage returns and no last line feed", found, wanted)
    loaded = ask(1, A, B) + ask(2, A, B) + ask(3, A, C) + ask(4, D, B, bandwidth=30)
    taken = {f"{A} 10.0.12.1 {B} 10.0.12.2": (("before", 180), ("scenario 4", 210)), f"{A} 10.0.14.1 {D} 10.0.14.4": (("scenario 1", 180),),
             f"{C} 10.0.23.3 {B} 10.0.23.2": (("scenario 1", 150),), f"{D} 10.0.34.4 {C} 10.0.34.3": (("scenario 1", 210),)}
    checks.same("a link that is overbooked has a line where it gets worse, and none where it stays or gets better",
                sorted(facts(program, RING, loaded, " overbooked ")), sorted(
                    f"{where} overbooked {name} priority=7 asked={asked} above=0 unreserved=100" for name, found in taken.items()
                    for where, asked in found))
    nothing = "network version=0 routers=0 links=0 circuits=0 requests=0\nbefore routes=0 without=0 overbooked=0\n" \
              "scenarios=0 lost=0 longer=0 overbooked=0\n"
    checks.same("an empty network", sweep(program.path, "", ""), (0, nothing, ""))


def parts(program, checks):
    """What fails as one, and in which order."""
    one_way = journal(link(A, "10.0.12.10", B, "10.0.12.2"), link(B, "10.0.12.2", A, "10.0.12.9"), link(A, "10.0.12.9", B, "10.0.12.3"))
    checks.same("links that don't lead to each other fail alone", facts(program, one_way, "", " out |network"), [
        "network version=1 routers=2 links=3 circuits=3 requests=0", f"scenario 1 out link {A} 10.0.12.9 {B} 10.0.12.3",
        f"scenario 2 out link {A} 10.0.12.10 {B} 10.0.12.2", f"scenario 3 out link {B} 10.0.12.2 {A} 10.0.12.9"])
    wide = journal(link("10.0.0.10", "10.1.0.1", "10.0.0.9", "10.1.0.2"), link("9.0.0.1", "10.1.0.3", "10.0.0.10", "10.1.0.4"))
    checks.same("routers come as numbers", facts(program, wide, "", " out ", "--fail", "routers"),
                ["scenario 1 out router 9.0.0.1", "scenario 2 out router 10.0.0.9", "scenario 3 out router 10.0.0.10"])
    many = [link(A, address_text(address_number("10.1.0.0") + at), B, address_text(address_number("10.2.0.0") + at)) for at in range(4100)]
    back = link(B, "10.2.0.0", A, "10.1.0.0")
    rows = journal(*many[:4096]) + "".join(many[4096:]) + back + "end,2,5\n"
    checks.same("more removals than a batch has", facts(program, rows, ask(1, A, B), "scenario", "--fail", "routers"), [
        f"scenario 1 out router {A}", "scenario 1 lost request 1 unknown-from was=10", "scenario 1 lost=1 longer=0 most=0 overbooked=0",
        f"scenario 2 out router {B}", "scenario 2 lost request 1 unknown-from was=10", "scenario 2 lost=1 longer=0 most=0 overbooked=0",
        "scenarios=2 lost=2 longer=0 overbooked=0"])
    twins = journal(link(A, "10.0.12.1", B, "10.0.12.9", 5), link(A, "10.0.12.2", B, "10.0.12.9"), link(B, "10.0.12.9", A, "10.0.12.2"))
    full = f"overbooked {A} 10.0.12.2 {B} 10.0.12.9 priority=7 asked=120 above=0 unreserved=100"
    checks.same("a circuit fails beside a cheaper link of one way to the same address",
                facts(program, twins, ask(1, A, B) + ask(2, A, B), " out | overbooked | lost request "), [
                    f"before {full}", f"scenario 1 out link {A} 10.0.12.1 {B} 10.0.12.9",
                    f"scenario 2 out circuit {A} 10.0.12.2 {B} 10.0.12.9",
                    "scenario 2 lost request 1 none was=10", "scenario 2 lost request 2 none was=10"])
    stub = journal(circuit(1, 2), link(B, "10.0.23.2", C, "10.0.23.3"))
    checks.same("a link of one way is on no route, and its address meets hops",
                facts(program, stub, ask(1, A, B, hops="10.0.23.2/32l") + ask(2, A, C), "without request|lost request| out "), [
                    "before without request 2 none", "scenario 1 out circuit 1.1.1.1 10.0.12.1 2.2.2.2 10.0.12.2",
                    "scenario 1 lost request 1 unknown-from was=10", f"scenario 2 out link {B} 10.0.23.2 {C} 10.0.23.3",
                    "scenario 2 lost request 1 none was=10"])
    marked = RING + f"node,{B},0\nnode,{D},0\nnode,9.9.9.9,0\nend,2,3\nnode,{D},1\nend,3,1\n"
    checks.same("a router without transit is passed in no scenario, and is an end in each",
                facts(program, marked, ask(1, A, C) + ask(2, A, B) + ask(3, B, D), "network|request"), [
                    "network version=3 routers=4 links=8 circuits=4 requests=3", "scenario 1 longer request 2 cost=35 was=10 more=25",
                    "scenario 2 lost request 1 none was=25", "scenario 3 longer request 3 cost=25 was=20 more=5",
                    "scenario 4 lost request 1 none was=25", "scenario 4 longer request 3 cost=25 was=20 more=5"])
    equal = journal(circuit(1, 2), circuit(2, 4), circuit(1, 3), circuit(3, 4))
    checks.same("another route of the same cost isn't longer", facts(program, equal, ask(1, A, D), "lost=.*overbooked"),
                [*(f"scenario {at} lost=0 longer=0 most=0 overbooked=0" for at in (1, 2, 3, 4)),
                 "scenarios=4 lost=0 longer=0 overbooked=0"])


def loads(program, checks):
    """Which link of several a route takes, and what its bandwidth is counted against: one sweep, each case with routers of its own."""
    def twins(*links):
        """Circuits between A and B; each is a local address, and a metric, a group and what is unreserved from A to B."""
        ends = [((A, f"10.0.12.{local}"), (B, f"10.0.12.{local + 1}"), values) for local, *values in links]
        return "".join(link(*one, *other, *values) + link(*other, *one, free=0) for one, other, values in ends)

    def full(local, priority, asked, above, unreserved=100):
        return (f"before overbooked {A} 10.0.12.{local} {B} 10.0.12.{local + 1} "
                f"priority={priority} asked={asked} above={above} unreserved={unreserved}\n")

    three, pair = "".join(ask(at, A, B, bandwidth=40) for at in (1, 2, 3)), circuit(1, 2)
    colors = twins((10, 5, "0x6", 100), (9, 5, "0x2", 100), (8, 5, "0x1", 100))
    least = f"put,{A},10.0.12.1,{B},10.0.12.2,1,0x1,90,80,70,60,50,40,30,20\n" + link(B, "10.0.12.2", A, "10.0.12.1")
    cases = [
        ("of two links the lower address as a number", twins((10, 5, "0x1", 100), (9, 5, "0x1", 100)), three, full(9, 7, 120, 0)),
        ("of two links the cheaper", twins((10, 4, "0x1", 100), (9, 5, "0x1", 100)), three, full(10, 7, 120, 0)),
        ("of two links the one with room", twins((10, 5, "0x1", 100), (9, 5, "0x1", 39)), three, full(10, 7, 120, 0)),
        *((f"the admissible link for {masks}", colors, three.replace(MASKS, masks), full(local, 7, 120, 0))
          for masks, local in (("0x1,0x0,0x0", 9), ("0x0,0x6,0x0", 9), ("0x0,0x0,0x6", 10), ("0x0,0x0,0x0", 8))),
        ("what just fits", pair, ask(1, A, B, bandwidth=100), ""),
        ("a link that a route takes twice", pair, ask(1, A, B, hops=f"{B}/32l {A}/32l"), full(1, 7, 120, 0)),
        ("the other direction is by itself", pair, ask(1, A, B) + ask(2, B, A), ""),
        ("a worse priority takes nothing from a better one", pair, ask(1, A, B, setup=2) + ask(2, A, B, setup=6), full(1, 6, 60, 60)),
        ("each priority has an unreserved bandwidth of its own", least, "".join(ask(setup, A, B, setup, 18) for setup in range(8)),
         "".join(full(1, at, 18, 18 * at, 90 - 10 * at) for at in (3, 4, 5, 6, 7)))]

    def of(place, text):
        """A case's text with its own routers, addresses and ids of requests."""
        text = text.replace(A, f"1.1.1.{place}").replace(B, f"2.2.2.{place}").replace("10.0.12.", f"10.{place}.12.")
        return text.replace("ask,", f"ask,{place}")

    rows = journal(*(of(place, rows) for place, (_, rows, _, _) in enumerate(cases, 1)))
    asks = "".join(of(place, asks) for place, (_, _, asks, _) in enumerate(cases, 1))
    found = facts(program, rows, asks, "^before overbooked")
    for place, (name, _, _, wanted) in enumerate(cases, 1):
        mine = [line for line in found if re.search(rf" [12]\.[12]\.[12]\.{place} ", line)]
        checks.same(name, mine, of(place, wanted).splitlines())


def jobs(program, checks):
    """Several scenarios are worked on at once, and their lines come in the scenarios' order."""
    with tempfile.TemporaryDirectory() as room:
        late = (f'{DROPS}touch(f"at.{{os.getpid()}}"); wait(lambda: sum(name.startswith("at.") for name in os.listdir(room)) > 2)\n'
                f'{FIRST}wait(lambda: os.path.exists(room + "/third"))\n{THIRD}touch("third")')
        found = sweep(wrapped(program, room, late), RING, ASKS, "--jobs", "3")
        checks.same("three that wait for each other, and the first for the third", found, (0, BEFORE + OF_CIRCUITS, ""))
        stop = wrapped(program, room, f'{THIRD}stop(3, "routed: stopped\\n")')
        wanted = BEFORE + OF_CIRCUITS[:OF_CIRCUITS.index("scenario 3")]
        for count in ("1", "3"):
            checks.same(f"a program that stops in scenario 3, {count} jobs", sweep(stop, RING, ASKS, "--jobs", count),
                        (3, wanted, f"sweep: scenario 3: {stop} ended with status 3: routed: stopped\n"))
        gone = wrapped(program, room, f"{DROPS}os.kill(os.getppid(), signal.SIGKILL); stop(0)")
        checks.same("a job that is ended", sweep(gone, RING, ASKS), (3, BEFORE, "sweep: scenario 1: its job was ended\n"))
        hangs = wrapped(program, room, HANGS)
        for name, text in (("journal", RING), ("requests", ASKS)):
            with open(os.path.join(room, name), "w") as file:
                file.write(text)
        running = subprocess.Popen([*SWEEP, f"{room}/journal", f"{room}/requests", "--program", hangs], stdout=subprocess.PIPE)
        while not os.path.exists(f"{room}/hangs") and running.poll() is None:
            time.sleep(0.01)
        running.terminate()
        out, _ = running.communicate(timeout=120)  # ends where nobody has its standard output any more
        hung = f"/proc/{open(f'{room}/hangs').read().split()[0]}"
        end = time.monotonic() + 60
        while os.path.exists(hung) and time.monotonic() < end:  # it is there until it is reaped
            time.sleep(0.01)
        alive = os.path.exists(hung)
        checks.same("a sweep that is ended, and its program with it", (running.returncode, out, alive), (143, BEFORE.encode(), False))


def asked(program, checks):
    """A scenario asks the requests that it can change, of one program."""
    hopped = RING.replace("end,1,8", circuit(1, 2, 90).replace("10.0.12.", "10.0.21.") + "end,1,10")
    asks = (ASKS + ask(5, B, C, hops="10.0.34.3/32l") + ask(6, A, B, hops="10.0.21.0/24l 2.2.2.2/32l")
            + ask(7, C, D, hops=f"{C}/32s 10.0.34.0/24s")
            + ask(8, A, B, hops=object_of(["10.0.14.0/30l"])))
    wanted = {AB: "1268", AB.replace("10.0.12.", "10.0.21."): "6", AD: "38", BC: "15", CD: "57"}
    with tempfile.TemporaryDirectory() as room:
        status, out, err = sweep(wrapped(program, room, 'print(row, file=open(room + "/rows", "a"))'), hopped, asks)
        rows = open(f"{room}/rows", encoding="ascii").read()
        found = {}
        for dropped, some in re.findall(r"(?m)^((?:drop,\S+\n)+)end,\d+,\d+\n((?:ask,.*\n)+)(?:put,.*\n)+end,", rows):
            one, other = (f"{row.split(',')[1]} {row.split(',')[2]}" for row in dropped.splitlines())
            found[f"circuit {one} {other}"] = "".join(re.findall(r"(?m)^ask,(\d+)", some))
        checks.same("which requests are asked", found, wanted)
        checks.same("in one program", (status, err, [name.split(".")[0] for name in os.listdir(room)].count("solve")), (0, "", 1))
    given = Network(program.path, 1, RING.encode(), ASKS.encode())
    text, *_ = given.outcome(1, [(AB, ((B, "10.0.12.2"),))])
    checks.same("one direction of a circuit out, which no route takes", f"{text}\n", OF_CIRCUITS[:OF_CIRCUITS.index("scenario 2")])


def progress(program, checks):
    """How far it is and how long it takes is said where standard error is a terminal, and leaves no trace there."""
    with tempfile.TemporaryDirectory() as room:
        slow = wrapped(program, room, DROPS + "time.sleep(0.3)")
        for name, text in (("journal", RING), ("requests", ASKS)):
            with open(f"{room}/{name}", "w", encoding="ascii") as file:
                file.write(text)
        for name, is_all in (("standard error", False), ("both", True)):
            terminal, far = pty.openpty()
            ran = subprocess.Popen([*SWEEP, f"{room}/journal", f"{room}/requests", "--program", slow],
                                   stdout=far if is_all else subprocess.PIPE, stderr=far)
            os.close(far)
            out = "" if is_all else ran.stdout.read().decode()
            said = b""
            with contextlib.suppress(OSError):  # a terminal that nobody has any more
                while data := os.read(terminal, 4096):
                    said += data
            os.close(terminal)
            said = said.decode().replace("\r\n", "\n")
            steps = re.findall(r"\r\033\[Ksweep: (\d) of 4 scenarios(?:, \d+ s left)?(?=\r\033\[K)", said)
            checks.true(f"{name} on a terminal: steps", steps[:1] == ["0"] and len(steps) > 2 and steps == sorted(set(steps)), said)
            left = re.sub(r"\r\033\[K(sweep: [^\r]*)?", "", said)
            checks.same(f"{name} on a terminal: lines", (ran.wait(), out + left), (0, BEFORE + OF_CIRCUITS))


def joined(program, checks):
    """The parts of a sweep, one after the other, are the sweep; and what lacks one or is changed is refused."""
    def parted(count, *words, asks=ASKS):
        return [sweep(program.path, RING, asks, "--part", f"{at}/{count}", *words)[1] for at in range(1, count + 1)]

    def join(text, *files):
        ran = subprocess.run([TOOLS, "join", *files], input=text, capture_output=True, text=True)
        return ran.returncode, ran.stdout, ran.stderr

    digest = hashlib.sha256(f"{RING}\0{ASKS}\0circuits".encode()).hexdigest()[:16]
    scenarios = re.split(r"(?<=\n)(?=scenario \d+ out|most requests 1)", OF_CIRCUITS)
    three = parted(3)
    ranked = [f"most requests 1 scenario 1 lost=0 longer=2 bandwidth=0 out {AB}\nmost failures 1 request 1 lost=0 longer=1\n"
              "most failures 2 request 2 lost=0 longer=1\n",
              f"most requests 1 scenario 2 lost=1 longer=0 bandwidth=30 out {AD}\nmost bandwidth 1 scenario 2 lost=1 longer=0 bandwidth=30 "
              f"out {AD}\n"
              "most failures 1 request 3 lost=1 longer=0\n",
              f"most requests 1 scenario 3 lost=0 longer=1 bandwidth=0 out {BC}\nmost failures 1 request 1 lost=0 longer=1\n"]
    checks.same("parts of a ring", three, [
        BEFORE + scenarios[0] + ranked[0] + f"part 1/3 input={digest} scenarios=1 lost=0 longer=1 overbooked=1\n",
        BEFORE + scenarios[1] + ranked[1] + f"part 2/3 input={digest} scenarios=1 lost=1 longer=0 overbooked=0\n",
        BEFORE + scenarios[2] + scenarios[3] + ranked[2] + f"part 3/3 input={digest} scenarios=2 lost=0 longer=1 overbooked=0\n"])
    for name, found, wanted in [("three parts", three, OF_CIRCUITS), ("one part", parted(1), OF_CIRCUITS),
                                ("seven parts of four scenarios, two jobs", parted(7, "--jobs", "2"), OF_CIRCUITS),
                                ("two parts of routers", parted(2, "--fail", "routers"), OF_ROUTERS)]:
        checks.same(f"joined: {name}", join("".join(found)), (0, BEFORE + wanted, ""))
    pairs = sweep(program.path, RING, ASKS, "--fail", "pairs")
    checks.same("joined: four parts of pairs", join("".join(parted(4, "--fail", "pairs"))), pairs)
    with tempfile.TemporaryDirectory() as room:
        for at, text in enumerate(three):
            with open(os.path.join(room, str(at)), "w", encoding="ascii") as file:
                file.write(text)
        checks.same("joined: files", join("", *(os.path.join(room, str(at)) for at in range(3))), (0, BEFORE + OF_CIRCUITS, ""))
        status, out, err = join("", os.path.join(room, "none"))
        checks.true("not joined: a file that isn't there", (status, out) == (1, "") and
                    err.endswith(": No such file or directory; give the path of a file that is there\n"), err)
    other, others = parted(3, asks=ASKS.replace(",30,", ",29,")), "another journal, other requests, other failures or another program"
    one, two, last = three
    for name, text, why in [
            ("nothing", "", "part 1/1 isn't there"), ("without the last", one + two, "part 3/3 isn't there"),
            ("without the first", two + last, "part 2/3 stands where part 1/3 has to be"),
            ("in another order", one + last + two, "part 3/3 stands where part 2/3 has to be"),
            ("one twice", one + two + two + last, "part 2/3 stands where part 3/3 has to be"),
            ("one of another count", one + parted(2)[1], "part 2/2 stands where part 2/3 has to be"),
            ("cut", one + two + BEFORE, f"a part ends by {BEFORE.splitlines()[-1]!r}, and not by a line that says which part it is"),
            ("cut before another", one + two[:two.index("part ")] + last,
             "a part ends by 'most failures 1 request 3 lost=1 longer=0', and not by a line that says which part it is"),
            ("without a scenario", one + two.replace(scenarios[1], "") + last, "part 2/3 hasn't the scenarios from 2 to 2"),
            ("with one twice", one + two.replace(scenarios[1], 2 * scenarios[1]) + last, "part 2/3 hasn't the scenarios from 2 to 2"),
            ("cut in the scenarios", one + two[:two.index("most ")] + last,
             "a part ends by 'scenario 2 lost=1 longer=0 most=0 overbooked=0', and not by a line that says which part it is"),
            ("with scenarios behind the ranking", one + two.replace("part 2", scenarios[1] + "part 2"),
             "a part ends by 'most failures 1 request 3 lost=1 longer=0', and not by a line that says which part it is"),
            *((f"without {text.split(' scenario')[0].split(' request ')[0]}", one + two.replace(text, "") + last,
               "part 2/3 hasn't the ranking of its scenarios")
              for text in ranked[1].splitlines(keepends=True)),
            ("with another count", one + two.replace("failures 1 request 3 lost=1", "failures 1 request 3 lost=2") + last,
             "part 2/3 hasn't the ranking of its scenarios"),
            ("a whole sweep", BEFORE + OF_CIRCUITS,
             "a part ends by 'most failures 3 request 2 lost=0 longer=1', and not by a line that says which part it is")]:
        status, _, err = join(text)
        checks.same(f"not joined: {name}", (status, err), (1, f"join: {why}; {PARTS}\n"))
    status, _, err = join(one + other[1] + last)
    checks.true("not joined: a part of other requests", status == 1 and err == f"join: part 2/3 is of {others}; {PARTS}\n", err)
    status, _, err = join(one + two.replace("unreserved=100", "unreserved=101", 1) + last)
    checks.true("not joined: a part whose program says otherwise", status == 1 and err == f"join: part 2/3 is of {others}; {PARTS}\n", err)
    for word in ("0/1", "2/1", "1", "1/0", "1/2/3", "-1/2", "x"):
        ran = subprocess.run([*SWEEP, "/dev/null", "/dev/null", "--part", word], capture_output=True, text=True)
        checks.true(f"no part: {word}", (ran.returncode, ran.stdout) == (2, "") and "sweep: error: " in ran.stderr, ran)


def refused(program, checks):
    """Journals and requests that aren't good, and programs that don't answer."""
    for name, rows, asks, words in (
            ("a torn journal", RING + circuit(2, 4), ASKS, "journal torn after 1: unended 2; write an end row behind the last change"),
            ("a row that is none", "foo\n", ASKS,
             "journal torn after 0: row 1 refused: kind; a row begins with put, drop, node, end or ask"),
            ("a batch that doesn't fit", RING + "drop,1.1.1.1,10.0.0.9\nend,2,1\n", ASKS,
             "batch 2 refused: absent 1; drop only links that are there"),
            ("a request that is none", RING, ASKS + "ask,5\n",
             "request row 5 refused: fields; a put row has 15 fields, an ask row 10, a drop, node or end row 3"),
            ("a bad mask", RING, ASKS.replace("0x2", "2"), "request row 3 refused: mask 8; write 0x and one to eight hexadecimal digits"),
            ("two requests of one id", RING, ASKS + ask(2, A, D), "request row 5 refused: same-id; give each request an id of its own"),
            ("neighbors of one address", journal(circuit(1, 2), link(A, "10.0.13.1", C, "10.0.12.2"), link(C, "10.0.12.2", A, "10.0.13.1")),
             ASKS,
             f"{B} and {C} have the same address 10.0.12.2, seen from {A}")):
        checks.same(name, sweep(program.path, rows, asks), (1, "", f"sweep: {words}\n"))
    for words in (["/nowhere/journal", "/dev/null"], ["/dev/null", TOP]):
        ran = subprocess.run([*SWEEP, *words, "--program", program.path], capture_output=True, text=True)
        checks.true(f"no file {words}", (ran.returncode, ran.stdout) == (1, "") and
                    re.fullmatch(r"sweep: \S+: (No such|Is a d)[^:\n]*; give .*\n", ran.stderr),
                    ran)
    for words in (["/dev/null"], *(["/dev/null", "/dev/null", *more]
                                   for more in (["--fail", "links"], ["--jobs", "0"], ["--workers", "65"]))):
        ran = subprocess.run([*SWEEP, *words], capture_output=True, text=True)
        checks.true(f"a command line {words}", (ran.returncode, ran.stdout) == (2, "") and "sweep: error: " in ran.stderr, ran)
    with open("/dev/full", "w") as full:
        ran = subprocess.run([*SWEEP, "/dev/null", "/dev/null", "--program", program.path], stdout=full, stderr=subprocess.PIPE, text=True)
        checks.same("standard output is full", (ran.returncode, ran.stderr),
                    (1, "sweep: No space left on device; make room, and run this again\n"))
    checks.same("a program that isn't there", sweep("/nowhere/routed", RING, ASKS),
                (3, "", "sweep: /nowhere/routed: No such file or directory; give the path of a file that is there\n"))
    def says(line):
        return f"print('version 1\\n{line}\\n\\n\\n'); sys.exit(0)"

    first = "route cost=20 hops=2 again=no ero=0014140101080a000c02200001080a0017032000"
    marked = RING.replace("end,1,8", f"node,{B},0\nend,1,9")
    with tempfile.TemporaryDirectory() as room:
        path = wrapped(program, room, first=f"if words[0] == 'batch':\n    {says(f'ask 1 v1 {first}')}")
        checks.same("a program with a route through a router without transit", sweep(path, marked, ASKS),
                    (3, "", f"sweep: {path} wrote a route that the network doesn't have, to request 1: {first}\n"))
        for name, script, said in (
                ("that stops", "sys.exit(print('routed: stopped', file=sys.stderr) or 3)", "{} ended with status 3: routed: stopped"),
                ("that is ended", "os.kill(os.getpid(), signal.SIGKILL)", "{} was ended by signal 9"),
                ("that takes no such words", "sys.exit(print(*words[5:], file=sys.stderr) or 1)",
                 "{} ended with status 1: --workers 5 --explain"),
                ("without a line", "sys.exit(0)", "{} wrote 0 lines, which aren't versions and 4 replies"),
                ("with replies of another order", says("ask 2 v1 none"), "{} wrote no reply to request 1: ask 2 v1 none"),
                ("with other words", says("ask 1 v1 nothing"), "{} wrote no reply to request 1: nothing"),
                *((f"with a route that has {name}", says(f"ask 1 v1 {other}"),
                   "{} wrote a route that the network doesn't have, to request 1: " + other)
                  for name, other in (("another cost", first.replace("20", "21", 1)), ("no link", first.replace("0c02", "0c03")),
                                      ("another end", "route cost=10 hops=1 again=no ero=000c140101080a000c022000")))):
            path = wrapped(program, room, first=f"if words[0] == 'batch':\n    {script}")
            checks.same(f"a program {name}", sweep(path, RING, ASKS, "--workers", "5"), (3, "", f"sweep: {said.format(path)}\n"))
        path = wrapped(program, room, first="if words[0] == 'snapshot':\n    sys.exit(print('too many rows') or 2)")
        checks.same("a program that makes no snapshot", sweep(path, RING, ASKS), (
            1, "", "sweep: too many rows; begin with a snapshot of the journal: routed snapshot --journal FILE\n"))
        for name, script, said in (
                ("that refuses a scenario", f"{DROPS}print('batch 2 refused: exhausted', flush=True); continue",
                 "wrote 'batch 2 refused: exhausted' where 'version 2' has to be"),
                ("that answers another version", 'if row.startswith("ask,1,"):\n    print("ask 1 v3 none", flush=True); continue',
                 "wrote 'ask 1 v3 none' where '(version |ask 1 v)2' has to be"),
                ("that writes a line more", 'if row == "end,3,2":\n    print("unended 1", flush=True)',
                 "wrote (a line that nobody asked for: version 3|'unended 1' where .* has to be)"),
                ("that stops before the network is there", 'stop(3, "routed: stopped\\n")', "ended with status 3: routed: stopped")):
            path = wrapped(program, room, script)
            status, out, err = sweep(path, RING, ASKS)
            checks.true(f"a program {name}", (status, out) == (3, BEFORE) and re.fullmatch(f"sweep: scenario 1: {path} {said}\n", err),
                        (status, out, err))


def page(program, checks):
    """docs/run/SWEEP.md quotes what is printed."""
    text = open(os.path.join(TOP, "docs/run/SWEEP.md"), encoding="utf-8").read()
    found = re.findall(r"<!-- printed by (.*?) -->\n\n((?:    .*\n)+)", text)
    checks.true("docs/run/SWEEP.md quotes the tool", len(found) > 1, found)
    for command, quoted in found:
        words = command.replace("routed-tools sweep", f'routed-tools sweep --program "{program.path}"')
        ran = subprocess.run(words, shell=True, cwd=TOP, capture_output=True, text=True)
        checks.same(f"docs/run/SWEEP.md: {command}", (ran.stdout, ran.stderr), (re.sub("(?m)^    ", "", quoted), ""))


def sweeps(program, checks):
    checks.parts((ring, parts, loads, compared, asked, streams, jobs, progress, joined, partners, refused, page), program, checks)
