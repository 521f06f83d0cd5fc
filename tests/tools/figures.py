"""What an operator sees of `routed-tools listen` and of a feed: figures, the log, the place that tells versions, and one user's share."""
import os
import pty
import re
import shutil
import signal
import socket
import subprocess
import sys
import tempfile
import threading
import time

from checks import TOOLS, TOP
from feed import played as feeds
from program.serving import CLIENTS, PATIENCE
from tools.fronts import Connection, Front, admitted, busy
from tools.logs import blocked, logged, priorities
from tools.reading import ASKS, PAIR, answered, eventually, exchanged, figures_of, got, seen, sent
from tools.watchers import came_and_went, in_parts

from routed.front import metrics, status
from routed.net import http

REFUSALS = [  # an alarm, its figure and a word of it, and whether one refusal is told of for good
    ("RoutedJournalFailed", "routed_refused_batches_total", "journal", True),
    ("RoutedJournalFailed", "routed_refused_batches_total", "stopped", True),
    *(("RoutedOutOfMemory", f"routed_refused_{rows}_total", "memory", False) for rows in ("batches", "placings", "rows")),
    ("RoutedBatchRefused", "routed_refused_batches_total", "version", False),
    ("RoutedRowRefused", "routed_refused_rows_total", "row", False),
    ("RoutedFeedBatchRefused", "routed_feed_refused_batches_total", "version", False)]
RISES = [  # an alarm, and the figure that rises from 0 to 1, or falls to 0, after 5 minutes
    ("RoutedPcepWithoutRoute", "routed_pcep_lsps_without_route", "0x20 1x100"),
    ("RoutedPcepOnLostRoute", 'routed_pcep_lsps_at_fault{fault="lost"}', "0x20 1x100"),
    *(("RoutedPcepLspAtFault", f'routed_pcep_lsps_at_fault{{fault="{fault}"}}', "0x20 1x100") for fault in ("down", "silent", "unknown")),
    ("RoutedPcepUpdateRefused", 'routed_pcep_updates_total{outcome="refused"}', "0x20 1x100"),
    ("RoutedClientRowRefused", "routed_client_refused_rows_total", "0x20 1x100"),
    ("RoutedPcepSessionEnded", "routed_pcep_sessions_ended_total", "0x20 1x100"),
    ("RoutedPcepNoServer", "routed_pcep_connected", "1x20 0x100"),
    ("RoutedPcepNoPlacements", "routed_pcep_placements_connected", "1x20 0x100"),
    ("RoutedPcepUncounted", "routed_pcep_lsps_uncounted", "0x20 1x100"),
    ("RoutedPcepJournal", "routed_pcep_journal_followed", "1x20 0x100"),
    ("RoutedPcepRepliesLost", "routed_pcep_replies_lost", "0x20 1x100")]
VERSIONS = 2000  # more lines than a socket keeps for a connection that doesn't read


def figures(program, checks):
    start = time.monotonic()
    with tempfile.TemporaryDirectory() as room:
        checks.parts_in(room, (text, sums, alarms, watched, named, half_closed, came_and_went, in_parts, page, logged, priorities, blocked,
                               each, screen, of_feed, audited), program, checks)
    print(f"figures: {CLIENTS} connections, {VERSIONS} versions, {time.monotonic() - start:.0f} s")


# ---- figures


def text(program, checks, room):
    """The text form, by hand and by promtool."""
    made = metrics.Figures()
    made.counter("a_total", "Help.", "word", ["x"])
    made.add("a_total", 2, 'y"\\\n')
    made.gauge("b", "Absent.", lambda: None)
    made.gauge("c", "Each.", lambda: {"p": 1, "q": 0.5}, "place")
    made.times("d_seconds", "Times.")
    made.values["d_seconds"][0][0], made.values["d_seconds"][0][1], made.values["d_seconds"][0][-1] = 1, 2, 1
    made.values["d_seconds"][1] = 99.00032
    wanted = ["# HELP a_total Help.", "# TYPE a_total counter", 'a_total{word="x"} 0', 'a_total{word="y\\"\\\\\\n"} 2', "# HELP b Absent.",
              "# TYPE b gauge", "# HELP c Each.", "# TYPE c gauge", 'c{place="p"} 1', 'c{place="q"} 0.5', "# HELP d_seconds Times.",
              "# TYPE d_seconds histogram"]
    counts = [1] + [3] * (len(metrics.TIMES) - 1) + [4]
    edges = [*(f"{it:g}" for it in metrics.TIMES), "+Inf"]
    wanted += [f'd_seconds_bucket{{le="{edge}"}} {count}'
               for edge, count in zip(edges, counts)] + ["d_seconds_sum 99.00032", "d_seconds_count 4"]
    checks.same("the text of figures", made.text().splitlines(), wanted)
    with seen(program, room) as front:
        Connection(front.updates).talk(PAIR + "end,1,2\n")
        head, body = got(room)
        checks.same("the head of an answer", head.splitlines(),
                    ["HTTP/1.1 200 OK", "Content-Type: text/plain; version=0.0.4; charset=utf-8",
                                                                f"Content-Length: {len(body.encode())}", "Connection: close"])
        page = open(os.path.join(TOP, "docs/run/WATCHING.md"), encoding="utf-8").read()
        for name in re.findall(r"(?m)^# TYPE (\w+) ", body):
            checks.true(f"docs/run/WATCHING.md has {name}", f"`{name}`" in page)
        judged_by_promtool(checks, "figures of listen", body)


def judged_by_promtool(checks, name, body):
    tool = shutil.which("promtool")
    if not tool:
        print(f"{name}: promtool is skipped, for it isn't there (Debian's prometheus)")
        return
    ran = subprocess.run([tool, "check", "metrics"], input=body, capture_output=True, text=True)
    checks.same(f"{name}: promtool", (ran.returncode, ran.stdout + ran.stderr), (0, ""))


def sums(program, checks, room):
    """64 connections, and what each sent, read and was refused: the figures add up, and never go down."""
    with seen(program, room) as front:
        updating = Connection(front.updates)
        checks.same("a first batch", updating.talk(PAIR + "end,1,2\n"), "version 1\n")
        together = [Connection(front.ask) for _ in range(CLIENTS)]
        rows = {outcome: row * (at + 3) for at, (outcome, row) in enumerate(ASKS.items())}
        bad = "put,1\n\n\r\nfoo\nask,1\n"  # blank rows have no line
        stop, found = threading.Event(), []

        def scrape():
            while not stop.is_set():
                found.append(figures_of(room))

        scraping = threading.Thread(target=scrape)
        scraping.start()
        for taken in together:
            taken.say("".join(rows.values()) + bad)
        lines = [[taken.lines.next() for _ in range(3 + 4 + 5 + 6 + 3)] for taken in together]
        checks.true("each connection has its lines", all(its == lines[0] for its in lines), lines)
        for batch, line in (("end,5,0\n", "batch 5 refused: expected 2\n"), ("end,2,1\n", "batch 2 refused: counted 0\n"),
                            ("drop,9.9.9.9,9.9.9.9\nend,2,1\n", "batch 2 refused: absent 1\n"),
                            ("drop,1.1.1.1,10.0.12.1\nend,2,1\n", "version 2\n"),
                            ("node,1.1.1.1,x\n", "row 11 refused: number\n")):
            checks.same(f"updates: {batch.strip()}", updating.talk(batch).split()[:2], line.split()[:2])
        checks.same("one connection too many", busy(front.ask), "busy\n")
        checks.same("a second one for updates", busy(front.updates), "busy\n")
        stop.set()
        scraping.join()
        now = figures_of(room)
        count = lambda name, value=None: now.get((name, value))
        wanted = {outcome: CLIENTS * (at + 3) for at, outcome in enumerate(ASKS)}
        checks.same("asks by outcome", {outcome: count("routed_asks_total", outcome) for outcome in ASKS}, wanted)
        checks.same("their times", count("routed_ask_seconds_count"), CLIENTS * (3 + 4 + 5 + 6 + 3))
        checks.same("refused rows", {word: number for (name, word), number in now.items() if name == "routed_refused_rows_total"},
                    counted(line for its in lines for line in its if " refused: " in line) | {"number": 1})
        checks.same("refused rows of clients", count("routed_client_refused_rows_total"),
                    sum(" refused: " in line for its in lines for line in its))
        checks.same("refused batches", {word: number for (name, word), number in now.items() if name == "routed_refused_batches_total"},
                    {"expected": 1, "counted": 1, "absent": 1})
        checks.same("busy", [count("routed_busy_total", place) for place in ("ask", "updates")], [1, 1])
        checks.same("connections", [count("routed_connections", place) for place in ("ask", "updates", "watch")], [CLIENTS, 1, 0])
        checks.same("the version, and what is left", [count(name) for name in ("routed_version", "routed_versions_left")], [2, 999998])
        checks.same("the journal", [count(name) for name in ("routed_changes_total", "routed_journal_bytes", "routed_journal_rows_left")],
                    [3, len(front.kept()), 1000000 - 5])
        checks.true("the age of the last batch", 0 <= count("routed_last_batch_age_seconds") < PATIENCE)
        totals = [name for name in now if re.search(r"_(total|count|bucket)$", name[0])]
        checks.true("no total goes down", all(before.get(name, 0) <= after.get(name, 0) for before, after in zip(found, found[1:] + [now])
                                              for name in totals), len(found))
        checks.true("nor passes what was sent", all(it.get(name, 0) <= now[name] for it in found for name in totals), len(found))
        together[0].say('ask,"\n')
        checks.same("a line that isn't passed on", together[0].rest(), "refused\n")
        for taken in together[1:]:
            taken.leave()
        eventually(checks, "all have ended", lambda: figures_of(room).get(("routed_connections", "ask")), 0)
        now = figures_of(room)
        checks.same("one was cut off", [count("routed_cut_off_total", reason) for reason in ("line", "idle")], [1, 0])
        checks.same("connections in all", [count("routed_connections_total", place) for place in ("ask", "updates")], [CLIENTS, 1])


def counted(lines):
    """Refused rows by the first word of the reason."""
    words = [line.split(" refused: ")[1].split()[0] for line in lines]
    return {word: words.count(word) for word in words}


def alarms(program, checks, room):
    """The rules are rules, and name figures that are there."""
    rules = os.path.join(TOP, "deploy/alarms.yml")
    page = "".join(open(os.path.join(TOP, "docs/run", name), encoding="utf-8").read() for name in ("WATCHING.md", "PCEP.md"))
    with open(rules, encoding="utf-8") as file:
        named = set(re.findall(r"routed_\w+", " ".join(re.findall(r"(?m)^ *expr: (.*)", file.read()))))
    checks.same("figures of alarms that are not on a page",
                [name for name in sorted(named) if f"`{name.removesuffix('_bucket')}`" not in page], [])
    if tool := shutil.which("promtool"):
        ran = subprocess.run([tool, "check", "rules", rules], capture_output=True, text=True)
        checks.same("promtool on the alarms", ran.returncode, 0)
        cases = os.path.join(room, "cases.yml")
        with open(cases, "w", encoding="utf-8") as file:
            file.write(f"rule_files: [{rules}]\nevaluation_interval: 15s\ntests:\n" + "".join(first_refusal(*it) for it in REFUSALS)
                       + "".join(rise(*it) for it in RISES))
        ran = subprocess.run([tool, "test", "rules", cases], capture_output=True, text=True)
        checks.same("promtool on a first refusal", (ran.returncode, ran.stdout + ran.stderr if ran.returncode else ""), (0, ""))


def raised(alarm, time, is_raised):
    return f"      - {{eval_time: {time}, expr: 'count(ALERTS{{alertname=\"{alarm}\", alertstate=\"firing\"}}) or vector(0)', " \
           f"exp_samples: [{{labels: '{{}}', value: {int(is_raised)}}}]}}\n"


def rise(alarm, series, values):
    """A case for promtool: a figure that changes after 5 minutes. The alarm is raised soon after that."""
    return (f"  - interval: 15s\n    input_series:\n      - {{series: '{series}', values: '{values}'}}\n"
            f"    promql_expr_test:\n" + raised(alarm, "4m", False) + raised(alarm, "12m", True))


def first_refusal(alarm, figure, word, later):
    """A case for promtool: a figure that isn't there for 5 minutes begins at 1. The alarm is raised, and `later` says whether it still
    is."""
    def at(time, is_raised):
        return raised(alarm, time, is_raised)
    return (f"  - interval: 15s\n    input_series:\n      - {{series: '{figure}{{word=\"{word}\"}}', values: '_x20 1x100'}}\n"
            f"    promql_expr_test:\n" + at("4m", False) + at("6m", True) + at("25m", later))


# ---- the place that tells versions


def watched(program, checks, room):
    with seen(program, room) as front:
        early, lazy = Connection(os.path.join(room, "watch")), Connection(os.path.join(room, "watch"))
        checks.same("before a batch", early.lines.next(), "version 0\n")
        updating, slowest = Connection(front.updates), 0.0
        for number in range(1, VERSIONS + 1):
            began = time.monotonic()
            line = updating.talk((PAIR if number == 1 else "") + f"node,1.1.1.1,{number % 2}\nend,{number},{3 if number == 1 else 1}\n")
            slowest = max(slowest, time.monotonic() - began)
            if (line, early.lines.next()) != (f"version {number}\n",) * 2:
                checks.fail(f"version {number}: {line}")
                return
        checks.true("each version is told, and a connection that doesn't read delays none", slowest < 10, slowest)
        late = Connection(os.path.join(room, "watch"))
        checks.same("the newest one at once", late.lines.next(), f"version {VERSIONS}\n")
        told = [int(lazy.lines.next().split()[1])]
        while told[-1] < VERSIONS:
            told.append(int(lazy.lines.next().split()[1]))
        checks.true("one that didn't read is told what rises, and the newest in the end",
                    told == sorted(set(told)) and told[-1] == VERSIONS, told)
        checks.true("and not all", len(told) < VERSIONS, len(told))
        late.say("anything\n" * 1000)
        checks.same("what a watcher sends is dropped",
                    (updating.talk(f"node,1.1.1.1,1\nend,{VERSIONS + 1},1\n"), late.lines.next(), early.lines.next()),
                    (f"version {VERSIONS + 1}\n",) * 3)
        for taken in (early, lazy, late):
            taken.socket.close()
        updating.talk(f"node,1.1.1.1,0\nend,{VERSIONS + 2},1\n")
        eventually(checks, "those that have gone", lambda: figures_of(room).get(("routed_connections", "watch")), 0)


def named(program, checks, room):
    """The line `run` is answered by the name of the server's run, where versions are told and where updates come in."""
    names = set()
    for at in range(2):
        inner = os.path.join(room, str(at))
        os.mkdir(inner)
        with seen(program, inner) as front:
            taken, updating = Connection(os.path.join(inner, "watch")), Connection(front.updates)
            taken.say("run")
            updating.say(f"{PAIR}run\nend,1,2\nrun\r\n")
            told = updating.hear(3).splitlines()
            checks.same("the name among rows of updates", (bool(re.fullmatch("run [0-9a-f]{16}", told[0])), told[1:]),
                        (True, ["version 1", told[0]]))
            taken.say("\nrunning\nrun\n" + "run" * 1000 + "\n")
            found = [taken.lines.next() for _ in range(2)]
            while len(found) < 4 and found.count(f"{told[0]}\n") < 2:
                found.append(taken.lines.next())
            names_told = [line for line in found if not line.startswith("version")]
            checks.same("the name where versions are told", names_told, [f"{told[0]}\n"] * 2)
            names.add(told[0])
    checks.same("each run has another name", len(names), 2)


def half_closed(program, checks, room):
    """A watcher that ends its sending side is told on, and the server's end is its end."""
    with seen(program, room) as front:
        taken = Connection(os.path.join(room, "watch"))
        taken.socket.shutdown(socket.SHUT_WR)
        checks.same("a half-closed watcher", (taken.lines.next(), Connection(front.updates).talk(PAIR + "end,1,2\n"), taken.lines.next()),
                    ("version 0\n", "version 1\n", "version 1\n"))
        front.child.terminate()
        checks.same("the end of the server", taken.lines.rest(), [])
        checks.same("no socket stays", (front.ended()[0], sorted(os.listdir(room))), (143, ["journal"]))


# ---- HTTP


def page(program, checks, room):
    """Whoever reads the figures badly is answered by a status, or ended, and asks go on meanwhile."""
    with seen(program, room) as front:
        checks.same("another path", got(room, "/")[0].splitlines()[0], "HTTP/1.1 404 Not Found")
        checks.same("with a query", got(room, "/metrics?x=1")[0].splitlines()[0], "HTTP/1.1 200 OK")
        checks.same("another method", got(room, method="POST")[0].splitlines()[::3],
                    ["HTTP/1.1 405 Method Not Allowed", "Allow: GET, HEAD"])
        head, body = got(room, method="HEAD")
        checks.same("HEAD", (head.splitlines()[0], body), ("HTTP/1.1 200 OK", ""))
        for name, data in (("no HTTP", b"ask,1,1.1.1.1,2.2.2.2,0,5,0x0,0x0,0x0,\n"), ("bytes", bytes(range(256)) * 40),
                           ("a line feed", b"\n"),
                           ("no version", b"GET /metrics\r\n\r\n"), ("TLS", bytes.fromhex("16030100c8010000c403"))):
            checks.same(f"{name} at the place of figures", exchanged(room, data)[0].splitlines()[0], "HTTP/1.1 400 Bad Request")
        checks.same("a head that is too long", exchanged(room, b"GET /metrics HTTP/1.1\r\nX: " + b"x" * http.HEAD)[0].splitlines()[0],
                    "HTTP/1.1 431 Request Header Fields Too Large")
        asking = Connection(front.ask)
        silent = [Connection(os.path.join(room, "metrics")) for _ in range(http.MOST)]
        silent[0].say("GET /metrics HTTP/1.1\r\n")
        began = time.monotonic()
        checks.same("an ask beside connections that send nothing", asking.talk(ASKS["route"]), "ask 1 v0 unknown-from\n")
        checks.true("a reader that comes then", ("routed_version", None) in figures_of_patiently(room), "")
        checks.true("they have five seconds", time.monotonic() - began < http.SECONDS + 5, time.monotonic() - began)
        checks.same("and end", [taken.rest() for taken in silent], [""] * http.MOST)
        front.child.send_signal(signal.SIGSTOP)  # (so that none is accepted before all have come)
        readers = [sent(room, b"GET /metrics HTTP/1.1\r\n\r\n") for _ in range(100)]
        front.child.send_signal(signal.SIGCONT)
        checks.same("an ask beside a hundred readers", asking.talk(ASKS["route"]), "ask 1 v0 unknown-from\n")
        checks.same("a hundred readers at once", [answered(made)[0].splitlines()[0] for made in readers], ["HTTP/1.1 200 OK"] * 100)


def figures_of_patiently(room):
    return {(found[1], found[3]): found[4] for line in got(room)[1].splitlines() if (found := status.SAMPLE.fullmatch(line))}


# ---- fairness and the screen


def each(program, checks, room):
    """One user, or one address, has at most its share."""
    with seen(program, room, "--each", "2") as front:
        both = [Connection(front.ask) for _ in range(2)]
        checks.same("as many as one may have", [taken.talk(ASKS["route"]) for taken in both], ["ask 1 v0 unknown-from\n"] * 2)
        checks.same("one more", busy(front.ask), "busy\n")
        checks.same("updates are not limited by it", Connection(front.updates).talk("end,7,0\n"), "batch 7 refused: expected 1\n")
        both[0].leave()
        checks.same("once one has ended", admitted(front.ask, ASKS["route"])[1], "ask 1 v0 unknown-from\n")
    os.mkdir(inner := os.path.join(room, "port"))
    with Front(program, inner, "--each", "1", ask="127.0.0.1:0") as front:
        place = ("127.0.0.1", int(front.first.rpartition(":")[2]))
        taken = Connection(place)
        checks.same("one of an address", (taken.talk(ASKS["route"]), busy(place)), ("ask 1 v0 unknown-from\n", "busy\n"))
        with socket.socket() as other:
            other.bind(("127.0.0.2", 0))
            other.connect(place)
            other.sendall(ASKS["route"].encode())
            checks.same("and one of another address", other.recv(100), b"ask 1 v0 unknown-from\n")


OTHER = "give the place of --metrics of listen, pcep or a feed, or that of a page"


def told(*words):
    """The status, standard output and standard error of `routed-tools status`."""
    ran = subprocess.run([sys.executable, TOOLS, "status", *words], capture_output=True, text=True, timeout=PATIENCE)
    return ran.returncode, ran.stdout, ran.stderr


def screen(program, checks, room):
    with seen(program, room) as front:
        updating, taken = Connection(front.updates), Connection(front.ask)
        updating.talk(PAIR + "end,1,2\n")
        taken.say(ASKS["route"] + ASKS["none"] + "foo\n")
        taken.hear(3)
        found, out, err = told(os.path.join(room, "metrics"))
        lines = dict(line.split(None, 1) if not line.startswith(("last", "time", "refused", "cut", "dropped")) else
                     (" ".join(line.split(" ")[:2]), line[19:]) for line in out.splitlines())
        checks.same("the screen", (found, err, lines.get("version"), lines.get("asks"), lines.get("refused rows"),
                                   lines.get("connections")),
                    (0, "", "1, 999,999 left", "none 1, route 1", "kind 1", "ask 1, metrics 1, updates 1"))
        checks.same("rows of clients on the screen", lines.get("rows"), "3 of clients, 1 refused")
        checks.same("a place that is no HTTP", told(front.ask), (1, "", f"status: {front.ask}: timed out; {OTHER}\n"))
    with socket.create_server(("127.0.0.1", 0)) as wrong:
        port, answer = str(wrong.getsockname()[1]), b"HTTP/1.1 200 OK\r\n\r\nrouted_version x\n"
        telling = threading.Thread(target=lambda: tell(wrong, answer))
        telling.start()
        checks.same("a figure that is no number", told(port),
                    (1, "", f"status: {port}: a figure is no number: could not convert string to float: 'x'; {OTHER}\n"))
        telling.join()
    absent = os.path.join(room, "absent")
    checks.same("a place that isn't there", told(absent), (
        1, "", f"status: {absent}: No such file or directory; start the server with --metrics, or give the place that it was given\n"))
    checks.same("no place", told("a:b")[0], 2)
    with socket.create_server(("127.0.0.1", 0)) as silent:
        port = str(silent.getsockname()[1])
        checks.same("a place that never answers", told(port), (1, "", f"status: {port}: timed out; {OTHER}\n"))


def tell(listener, answer):
    """Answers one request."""
    with listener.accept()[0] as taken:
        taken.recv(1 << 16)
        taken.sendall(answer)


# ---- a feed


def of_feed(program, checks, room):
    """What a feed heard, put, leaves out, and had refused."""
    router, place = feeds.Router(), os.path.join(room, "feed")
    made = feeds.Feed(router, "--collect", "0.05", "--metrics", place, command=["--", program.path, "solve"])
    try:
        router.send(feeds.PAIR + feeds.update(feeds.te_lsa(feeds.A, "10.9.9.9", feeds.B, None, "1.0.0.9")))
        read = lambda name, value=None: figures_of(room, "feed").get((name, value))
        eventually(checks, "links of the feed", lambda: read("routed_feed_links"), 2)
        eventually(checks, "the version of the feed", lambda: read("routed_feed_version"), 1)
        found = figures_of(room, "feed")
        checks.same("a feed that is connected", (read("routed_feed_connected"), read("routed_feed_marks")), (1, 0))
        checks.true("when it heard", 0 <= read("routed_feed_heard_age_seconds") < PATIENCE)
        checks.same("links that are left out", sum(number for (name, _), number in found.items() if name == "routed_feed_left_out"), 1)
        with socket.socket(socket.AF_UNIX) as asking:
            asking.connect(place)
            asking.sendall(b"GET /metrics HTTP/1.1\r\n\r\n")
            judged_by_promtool(checks, "figures of a feed", asking.makefile().read().partition("\n\n")[2])
        router.hang_up()
        router.listening.close()
        eventually(checks, "a feed that has lost its router", lambda: read("routed_feed_connected"), 0)
    finally:
        made.process.terminate()
        made.process.wait(PATIENCE)
    checks.same("its place has gone", os.listdir(room), [])


# ---- how far an audit is


def audited(program, checks, room):
    """`routed-tools audit` is `routed audit`, and says on a terminal how far it is."""
    from routed import audit
    journal, requests, replies = (os.path.join(room, name) for name in ("journal", "requests", "replies"))
    for path, text in ((journal, PAIR + "end,1,2\n"), (requests, ASKS["route"]), (replies, "ask 1 v1 none\n" * 3)):
        with open(path, "w") as file:
            file.write(text)
    words = ["--journal", journal, "--requests", requests, "--replies", replies]
    wanted = program.run(["audit", *words])
    tool = [sys.executable, TOOLS, "audit", "--program", program.path, *words]
    ran = subprocess.run(tool, capture_output=True)
    checks.same("the audit of the tool", (ran.returncode, ran.stdout, ran.stderr), wanted)
    ran = subprocess.run([*tool[:-2], "--replies", room + "/absent", "--explain"], capture_output=True)
    checks.same("a file that isn't there", (ran.returncode, ran.stdout, ran.stderr),
                (3, b"", f"audit: {room}/absent: No such file or directory; give the path of a file that is there\n".encode()))
    ran = subprocess.run([*tool[:3], "--program", "/nowhere/routed", *words], capture_output=True)
    wanted = b"audit: /nowhere/routed: No such file or directory; give the path of a file that is there\n"
    checks.same("no program", (ran.returncode, ran.stderr), (3, wanted))
    slow = os.path.join(room, "slow")
    with open(slow, "w") as file:
        file.write(f'#!/bin/sh\nexec 5<"{replies}"\nread -r line <&5\nsleep 1.2\nexit 2\n')
    os.chmod(slow, 0o755)
    ours, theirs = pty.openpty()
    ran = subprocess.run([*tool[:3], "--program", slow, *words], stderr=theirs)
    said = os.read(ours, 4096).decode()
    checks.true("how far it is", ran.returncode == 2 and "audit: 33 % of the replies are read" in said, (ran.returncode, said))
    with open(slow, "w") as file:
        file.write('#!/bin/sh\necho "$*"\n')
    ran = subprocess.run([*tool[:3], "--program", slow, *words, "--except"], capture_output=True, text=True)
    checks.same("an option that is passed on", ran.stdout.split()[-2:], ["--explain", "--except"])
    with open(slow, "w") as file:
        file.write("#!/bin/sh\nkill -9 $$\n")
    checks.same("an audit that a signal ends", subprocess.run([*tool[:3], "--program", slow, *words]).returncode, 128 + 9)
    checks.same("what it says", [audit.line_of(0, 3), audit.line_of(0.25, 2), audit.line_of(1, 9)],
                ["audit: 0 % of the replies are read", "audit: 25 % of the replies are read, 6 s left",
                 "audit: 100 % of the replies are read"])
