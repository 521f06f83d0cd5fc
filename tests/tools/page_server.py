"""`routed-tools page` without a browser: who may look, what pages are told, asks, pinned asks, what if, and how soon."""
import os
import random
import re
import subprocess
import tempfile
import time

from checks import TOOLS, TOP
from reference import admission, formats
from tools.fronts import Connection
from tools.page_bad import bad_input
from tools.page_delays import delays
from tools.page_pins import pins_and_what_if
from tools.paged import BERLIN, BONN, GERMANY, PLACES, Events, paged, rows_of
from tools.reading import eventually

ASKS, NETWORKS = 1000, 20  # drawn asks, and networks on which they are asked
EVIL = "http://evil.example"
LONGEST_HEAD = 8192  # bytes of a request


def page_server(program, checks):
    start = time.monotonic()
    with tempfile.TemporaryDirectory() as room:
        checks.parts_in(room, (looks, others, told, asked, reasons, admitted, *pins_and_what_if, *bad_input, *delays), program, checks)
    print(f"page: {ASKS} drawn asks, {time.monotonic() - start:.0f} s")


# ---- who may look


def looks(program, checks, _):
    """Hosts, methods, paths, lengths and policies."""
    with paged(program.path, GERMANY, "--host", "planner.example") as at:
        hosts = {"localhost": 200, "localhost:1": 200, "LOCALHOST": 200, "127.0.0.1": 200, "127.1.2.3:80": 200, "[::1]:80": 200,
                 "planner.example": 200, "Planner.example:8080": 200, "": 400, "evil.example": 400, "127.0.0.1.evil.example": 400,
                 "localhost.evil.example": 400, "10.0.0.1": 400, "[::2]": 400, "localhost:80:80": 400, "localhost@evil.example": 400,
                 "localhost, evil.example": 400, "0.0.0.0": 400, "planner.example.": 400, "127.0.0.1 evil.example": 400}
        for path in ("/", "/page.js", "/metrics", f"/ask?token={at.token}&head={BERLIN}&tail={BONN}"):
            checks.same(f"{path[:9]} by its Host", {host: at.get(path, host=host)[0] for host in hosts}, hosts)
        two = at.exchange(b"GET /metrics HTTP/1.1\r\nHost: localhost\r\nHost: evil.example\r\n\r\n")
        checks.same("two Hosts", two.split()[1], "400")
        for method in ("POST", "PUT", "DELETE", "OPTIONS", "PATCH", "get"):
            status, fields, _ = at.get(f"/ask?token={at.token}&head={BERLIN}&tail={BONN}", method)
            checks.same(f"{method}", (status, fields.get("Allow")), (405, "GET, HEAD"))
        checks.same("HEAD", at.get("/page.js", "HEAD")[::2], (200, ""))
        found = at.get(f"/events?token={at.token}", "HEAD")[0], at.figures()["routed_page_open", None]
        checks.same("HEAD of events opens no page", found, (405, 0))
        for path in ("/page.html", "/static/page.js", "/../page.py", "//page.js", "/%2e%2e/page.py", "/page.js/", "/etc/passwd", "*",
                     "/.", "http://localhost/", "/asked", "/ASK", "/favicon.ico"):
            checks.same(f"the path {path}", at.get(path)[0], 404)
        filler = LONGEST_HEAD - len("GET /metrics HTTP/1.1\r\nHost: localhost\r\nX: \r\n\r\n")
        for more, wanted in ((0, "200"), (1, "431")):
            head = f"GET /metrics HTTP/1.1\r\nHost: localhost\r\nX: {'x' * (filler + more)}\r\n\r\n"
            checks.same(f"a request of {len(head)} bytes", at.exchange(head.encode()).split()[1], wanted)
        for data in (b"ask,1,1.1.1.1,2.2.2.2,0,5,0x0,0x0,0x0,\n", bytes(range(256)), b"\n", b"GET /\r\n\r\n",
                     bytes.fromhex("16030100c8010000c4")):
            checks.same(f"no HTTP: {data[:9]}", at.exchange(data).split()[1], "400")
        answers = {path: at.get(path) for path in ("/", "/page.js", "/page.css", "/metrics", "/nowhere", "/ask", f"/at?token={at.token}")}
        for path, (_, fields, _) in answers.items():
            policy = fields.get("Content-Security-Policy", "")
            checks.true(f"{path[:9]}: its policy allows nothing from elsewhere",
                        "default-src 'none'" in policy and not re.search(r"https?:|\*|unsafe|evil", policy)
                        and fields["X-Content-Type-Options"] == "nosniff" and "Access-Control-Allow-Origin" not in fields, fields)
        with open(os.path.join(TOP, "python/routed/page/static/page.html"), encoding="utf-8") as file:
            wanted = file.read().replace("{{TOKEN}}", at.token)
        checks.same("the page has the token, and nothing else of this start", answers["/"][2], wanted)
        checks.true("nothing in it is from elsewhere", not re.search(r"(?:src|href)=[\"']?(?:https?:)?//", wanted))
    ran = subprocess.run([*at.words[:-2], "--at", "0.0.0.0:0"], capture_output=True, text=True)
    checks.same("a port that others reach", (ran.returncode, "no sign-on" in ran.stderr), (2, True))
    behind(program, checks)


def behind(program, checks):
    """At a path, as a web server finds it."""
    with tempfile.TemporaryDirectory() as room:
        path = os.path.join(room, "page")
        with paged(program.path, GERMANY, "--at", path, "--mode", "660") as at:
            made = Connection(path)
            made.say("GET /metrics HTTP/1.0\r\nHost: localhost\r\n\r\n")
            checks.same("at a path", (made.rest().split()[1], oct(os.stat(path).st_mode & 0o777), at.first), ("200", "0o660", ["ready\n"]))


def others(program, checks, _):
    """A page of another origin, by a picture, a form and a script: it reads 403 or nothing, and starts nothing."""
    with paged(program.path, GERMANY) as at:
        events = Events(at)
        page = events.until("hello")["page"]
        form = f"head={BERLIN}&tail={BONN}"
        names = (f"ask?{form}", f"why?{form}", f"pin?page={page}&{form}", f"unpin?page={page}&pin=1", "events?",
                 f"whatif?page={page}&router={BERLIN}", "at?version=1")
        kinds = {"a picture": {"Sec_Fetch_Dest": "image", "Sec_Fetch_Mode": "no-cors", "Referer": EVIL},
                 "a form": {"Sec_Fetch_Dest": "document", "Sec_Fetch_Mode": "navigate", "Origin": EVIL},
                 "a script": {"Sec_Fetch_Dest": "empty", "Sec_Fetch_Mode": "cors", "Origin": EVIL}}
        for kind, fields in kinds.items():
            for fetch in ({"Sec_Fetch_Site": "cross-site"}, {}):  # an old browser doesn't send it
                for token in ("", "token=", f"token={'0' * 32}", f"token={at.token[:-1]}", f"token={at.token.upper()}x",
                              *([f"token={at.token}"] if fetch else [])):
                    found = {name: at.get(f"/{name}&{token}", is_read=False, **fields, **fetch)[0] for name in names}
                    checks.same(f"{kind} of another site, {token[:9]}, {fetch}", found, dict.fromkeys(names, 403))
            checks.same(f"{kind} by POST", at.get(f"/ask?{form}&token={at.token}", "POST", **fields)[0], 405)
        checks.same("two tokens", at.get(f"/ask?token=x&token={at.token}&{form}")[0], 403)
        found = at.figures()
        checks.same("nothing was asked, and no program runs",
                    ([number for (name, _), number in found.items() if name == "routed_page_asks_total" and number],
                     found.get(("process_open_fds", "solve"))), ([], None))
        checks.same("the page's own request", at.get(f"/ask?{form}&token={at.token}", Sec_Fetch_Site="same-origin")[0], 200)
        events.close()


# ---- what pages are told


def told(program, checks, _):
    """The events of a page, the words of versions, and a version that is shown again."""
    with paged(program.path, GERMANY, "--places", PLACES) as at:
        events = Events(at)
        kinds = {}
        while "changes" not in kinds:  # the state of the server is told again where it has changed
            name, data = events.next()
            kinds[name] = data
        checks.same("the first events", list(kinds), ["hello", "server", "network", "changes"])
        checks.same("names are those of the places", kinds["hello"]["names"][BERLIN], "Berlin")
        checks.same("the network", sorted(numbers_of(row) for row in kinds["network"]["rows"]),
                    sorted(numbers_of(row) for row in GERMANY.splitlines() if row.startswith("put")))
        checks.true("no name is in the page that it is sent", "Berlin" not in at.get("/")[2])
        link, back = (next(row for row in GERMANY.splitlines() if re.match(start, row)) for start in (
            f"put,{BERLIN},10.0.0.17,", "put,192.168.0.[0-9]+,10.0.0.16,"))
        dearer = link.replace(f",{link.split(',')[5]},0x", ",999,0x")
        texts = [("node,192.168.0.3,0", ["router Berlin without transit"]), ("node,192.168.0.3,1", ["router Berlin with transit again"]),
                 (dearer, [f"{words_of(at, link)}: metric {link.split(',')[5]} > 999"]),
                 ("drop," + ",".join(link.split(",")[1:3]) + "\ndrop," + ",".join(back.split(",")[1:3]),
                  [f"circuit down: {words_of(at, sorted([link, back], key=lambda row: row.split(',')[1:3])[0])}"]),
                 (f"{link}\n{back}", [f"circuit up: {words_of(at, sorted([link, back], key=lambda row: row.split(',')[1:3])[0])}"]),
                 ("drop," + ",".join(link.split(",")[1:3]), [f"link down: {words_of(at, link)}"]), ("", []),
                 (link, [f"link up: {words_of(at, link)}"])]
        for rows, wanted in texts:
            version = at.publish(rows)
            found = events.until("version")
            checks.same(f"version {version} in words", (found["version"], found["words"]), (version, wanted))
            checks.same(f"version {version} in rows", list(map(numbers_of, found["rows"])), list(map(numbers_of, rows.splitlines())))
        drawn = [re.sub(r"(?:,\d+){8}$", ",7" * 8, row) for row in GERMANY.splitlines() if row.startswith("put")]
        version = at.publish(drawn)
        checks.same("many links", events.until("version")["words"], [f"bandwidth of {len(drawn)} links"])
        for number, count in ((1, len(drawn)), (5, len(drawn) - 2), (version, len(drawn))):
            status, found = at.call("at", version=number)
            checks.same(f"version {number} again", (status, found["version"], len(found["rows"])), (200, number, count))
        checks.same("and its rows", at.call("at", version=1)[1]["rows"], kinds["network"]["rows"])
        texts = "0", "99", "x", "-1", "9" * 99, ""
        checks.same("versions that aren't kept", [at.call("at", version=text)[0] for text in texts], [404] * len(texts))
        second = Events(at)
        found = second.until("changes")["versions"]
        checks.same("another page is told all of them", [one["version"] for one in found], list(range(1, version + 1)))
        for one in (events, second):
            one.close()
        eventually(checks, "pages that have gone", lambda: at.figures()["routed_page_open", None], 0)


def numbers_of(row):
    """A row with its mask as a number."""
    return [int(field, 16) if field.startswith("0x") else field for field in row.split(",")]


def words_of(at, row):
    """A link in words, by the places of the example."""
    lines = [line.split(maxsplit=3) for line in rows_of("germany.places").splitlines() if not line.startswith("#")]
    names = {address: name.strip() for address, _, _, name in lines}
    fields = row.split(",")
    return f"{names[fields[1]]} {fields[2]} to {names[fields[3]]} {fields[4]}"


# ---- asks


def asked(program, checks, _):
    """A reply line is what the row reads where clients ask, and words are those of `routed-tools ask`."""
    with paged(program.path, GERMANY, "--places", PLACES) as at:
        asking, draw = Connection(at.ask), random.Random(83)
        routers = sorted({row.split(",")[1] for row in GERMANY.splitlines() if row.startswith("put")})
        faults, count = [], 0
        for _ in range(50):
            head, tail = draw.sample(routers, 2)
            bandwidth, setup = draw.choice(("0", "2G", "125MB", "60G")), draw.randrange(8)
            status, found = at.call("ask", head=head, tail=tail, bandwidth=bandwidth, setup=setup,
                                    hops=draw.choice(("", f"{draw.choice(routers)}", f"{draw.choice(routers)}:strict")))
            line = asking.talk(f"{found['row']}\n") if status == 200 else ""
            if status != 200 or line != f"{found['line']}\n" or len(found["links"]) != (found["hops"] or 0):
                faults.append((status, found, line))
            count += bool(found.get("links"))
        checks.same("answers that aren't those of the row", faults[:2], [])
        checks.true("some have routes", 10 < count < 50, count)
        status, found = at.call("ask", head="Berlin", tail="Bonn", exclude="0x0")
        checks.same("by names", (status, found["form"]["head"], found["form"]["tail"]), (200, BERLIN, BONN))
        words = {"head": ("", "Berlinn", "1.2.3", "x" * 3000), "bandwidth": ("1", "-1", "1X", "1e9", "999999999999G"),
                 "setup": ("8", "-1", "x", "77"), "exclude": ("red", "32", "0x123456789", "1,,2"), "tail": ("Berlin",),
                 "hops": ("Berlin:strict,x", "10.0.0.1/33l", ",".join(["Berlin"] * 8))}
        for name, texts in words.items():
            for text in texts:
                status, found = at.call("ask", **{"head": "Berlin", "tail": "Bonn", name: text})
                checks.true(f"{name}={text[:20]} is refused in words", status == 400 and len(found["refused"]) > 10, (status, found))
        checks.same("many fields", at.get(f"/ask?token={at.token}&" + "&".join(f"a{n}=1" for n in range(101)))[0], 400)
        row = at.call("ask", head="Berlin", tail="Bonn", hops="Hamburg, Köln:strict")[1]
        again = at.call("ask", head="Berlin", tail="Bonn", hops=row["form"]["hops"])[1]
        checks.same("hops as the row has them", again["form"], row["form"])
        before = at.figures()["routed_page_asks_total", "route"]
        taken = [at.call("ask", head="Kiel", tail="Ulm")[1]["row"] for _ in range(9)]
        checks.same("equal asks are asked once", (len(set(taken)), at.figures()["routed_page_asks_total", "route"] - before), (1, 9))
        at.publish("node,192.168.0.3,0")
        found = at.call("ask", head="Kiel", tail="Ulm")[1]
        checks.same("and again at the next version", (found["row"] in taken, found["version"], found["stale"]), (False, 2, False))


def reasons(program, checks, _):
    """The reasons where there is no route are those that `routed-tools ask --why` prints."""
    with paged(program.path, GERMANY, "--places", PLACES) as at:
        for words in (["--bandwidth", "200G"], ["--bandwidth", "2G"], ["--via", "Hamburg:strict"], ["--include-all", "3"],
                      ["--exclude", "1"], ["--bandwidth", "200G", "--include-any", "3,4", "--via", "Kiel,Ulm"]):
            names = {"--include-all": "all", "--include-any": "include", "--via": "hops"}
            form = {names.get(name, name.lstrip("-")): text for name, text in zip(words[::2], words[1::2])}
            ran = subprocess.run([TOOLS, "ask", at.ask, "Berlin", "Bonn", "--why", "--journal", at.journal, "--names",
                                  PLACES, *words], capture_output=True, text=True)
            wanted = [line for line in ran.stdout.splitlines()[2:]]
            wanted = wanted[next((number for number, line in enumerate(wanted) if line.startswith("why:")), 0):]
            status, found = at.call("why", head="Berlin", tail="Bonn", **form)
            checks.same(f"why {' '.join(words)}", (status, found.get("lines")), (200, wanted))
        checks.true("they are reasons", wanted and wanted[0].startswith("why: "), wanted)


def admitted(program, checks, _):
    """For drawn asks the links that are faded, and the words for why, are those that tests/reference doesn't admit."""
    draw, faults, seen, before = random.Random(83), [], set(), []
    with paged(program.path, None) as at:
        for _ in range(NETWORKS):
            rows = list(admission.network_rows(draw))
            gone = [f"drop,{','.join(row.split(',')[1:3])}" if row.startswith("put") else f"node,{row.split(',')[1]},1" for row in before]
            if gone:
                at.publish(gone)
            at.publish(rows)
            before = rows
            network = formats.Network().after([formats.row(row.split(",")) for row in rows])
            for _ in range(ASKS // NETWORKS):
                row = admission.ask_row(draw)
                asked = formats.row(row.split(","))[1]
                fields = row.split(",")
                bandwidth = f"{fields[5]}B" if fields[5] != "0" else "0"
                status, found = at.call("ask", head=fields[2], tail=fields[3], setup=fields[4], bandwidth=bandwidth, exclude=fields[6],
                                        include=fields[7], all=fields[8])
                wanted = {}
                for link in network.links.values():
                    is_onward = link["from"] != asked["from"]
                    word = admission.word(network, link, asked, is_onward)
                    admits = formats.admissible(network, link, asked) and formats.may_leave(network, link["from"], int(is_onward))
                    if (word is None) != admits:
                        faults.append((row, word, admits))
                    if word:
                        key = " ".join(formats.address_text(link[name]) for name in ("from", "local"))
                        wanted.setdefault(word, set()).add(key)
                        seen.add(word)
                told = {word: set(keys) for word, keys in (found.get("why") or {}).items()}
                if status != 200 or told != wanted or found["version"] != at.version:
                    faults.append((row, status, told, wanted))
    checks.same("asks whose faded links aren't those of the reference", faults[:1], [])
    checks.same("the words that were seen", seen, admission.WORDS - {None})
