"""Tests of what the tools say of mistakes: each ends with a line that says what to do, a status that isn't 0, and no traceback. Ctrl-C and
a closed pipe end a tool without one, too."""
import fcntl
import gzip
import os
import re
import signal
import socket
import subprocess
import sys
import tempfile
import termios
import time
from concurrent.futures import ThreadPoolExecutor

from checks import TOOLS, TOP
from program.serving import PATIENCE
from tools import planned
from tools.fronts import Connection, Front
from tools.reading import PAIR, seen

AT_ONCE = 4  # mistakes that are tried side by side
JOURNAL, REQUESTS = (os.path.join(TOP, f"examples/nsfnet.{end}") for end in ("journal", "requests"))
NOBODY = 65534
NO_LINE = "the place takes no such line, and nothing that follows it"
TABS, SEMICOLONS = "fields have tabs between: put commas there by", "fields have semicolons between"
HEADER = "first line is a header"
GZIP, JSON = "it is compressed by gzip: unpack it by gunzip", "it is JSON: a row is fields with commas"
UTF_16 = "it is UTF-16: make it UTF-8"


def files(room):
    """Files that each have one thing wrong."""
    with open(JOURNAL, "rb") as file:
        journal = file.read()
    lines = journal.splitlines(keepends=True)
    made = {"gzip": gzip.compress(journal), "json": b'{"links": []}\n', "tabs": journal.replace(b",", b"\t"),
            "semicolons": journal.replace(b",", b";"), "header": b"kind,router,local\n" + journal,
            "utf16": journal.decode().encode("utf-16"),
            "quote": journal.replace(b"put,", b'put,"', 1), "unended": journal + lines[0], "torn": journal[:1000],
            "replies": b"ask 1 v1 none\n", "zip": b"PK\x03\x04" + journal, "twice": b"ask,1,1.1.1.1,2.2.2.2,0,0,0x0,0x0,0x0,\n" * 2,
            "absent": journal + b"drop,1.1.1.1,2.2.2.2\nend,11,1\n", "places": b"1.1.1.1 east north\n", "closed": b"",
            "pairs": b"pair 1 v1 none\n", "part": b"scenarios=0 lost=0 longer=0 overbooked=0\n",
            "unit": b"?SNDlib native format; type: network\nMETA ( unit = ERLANG )\n",
            "nothing": b"", "other": journal.replace(b"end,2,", b"end,3,"), "spaces": journal.replace(b",", b" ")}
    for name, data in made.items():
        with open(os.path.join(room, name), "wb") as file:
            file.write(data)
    os.chmod(os.path.join(room, "closed"), 0)
    for folder in (room, os.path.dirname(room)):
        os.chmod(folder, 0o755)


# Of each mistake: the words, the file of standard input or None, the status, and what its last line has. J and R are two examples.
TABLE = {
    "a journal that isn't there": ("sweep nowhere R", None, 1, "nowhere: No such file or directory; give the path"),
    "a folder": ("sweep . R", None, 1, "Is a directory; give a file, not a folder"),
    "a compressed journal": ("sweep gzip R", None, 1, f"gzip: {GZIP}"),
    "compressed requests": ("sweep J gzip", None, 1, f"gzip: {GZIP}"),
    "a ZIP archive": ("sweep zip R", None, 1, "it is a ZIP archive: unpack it by unzip"),
    "JSON": ("sweep json R", None, 1, JSON),
    "tabs": ("sweep tabs R", None, 1, TABS),
    "semicolons": ("sweep semicolons R", None, 1, SEMICOLONS),
    "spaces": ("sweep spaces R", None, 1, "fields have spaces between"),
    "a header": ("sweep header R", None, 1, HEADER),
    "UTF-16": ("sweep utf16 R", None, 1, UTF_16),
    "an open quotation mark": ("sweep quote R", None, 1, "with a quotation mark left open in line 1"),
    "no end row": ("sweep unended R", None, 1, "unended 1; write an end row behind the last change"),
    "half a row": ("sweep torn R", None, 1, "row 9 refused: fields; a put row has 15 fields"),
    "a batch with the wrong number": ("sweep other R", None, 1, "batch 3 refused: expected 2; give the batch the number"),
    "replies in place of requests": ("sweep J replies", None, 1, "it is lines that routed or a tool has written, not rows"),
    "lines of pairs in place of requests": ("sweep J pairs", None, 1, "it is lines that routed or a tool has written, not rows"),
    "a pair of no way": ("draw J --replies pairs --ask 1", None, 1, "no route in the reply: pair 1 v1 none"),
    "a journal in place of requests": ("sweep J J", None, 1, "request row 1 refused: kind; a row begins with"),
    "one id twice": ("sweep J twice", None, 1, "same-id; give each request an id of its own"),
    "a file that may not be read": ("sweep closed R", None, 1, "closed: Permission denied; give yourself the right to it"),
    "no requests": ("sweep J", None, 2, "the following arguments are required: requests"),
    "a failure of cables": ("sweep J R --fail cables", None, 2, "(choose from 'circuits', 'routers', 'pairs')"),
    "no jobs": ("sweep J R --jobs 0", None, 2, "'0' is no number from 1 to 64"),
    "a book that isn't there": ("sweep --book nowhere", None, 1, "nowhere: No such file or directory; give the path"),
    "a compressed book": ("sweep --book gzip", None, 1, f"gzip: {GZIP}"),
    "a book without an end row": ("sweep --book unended", None, 1, "the book: unended 1; write an end row behind the last change"),
    "no capacities": ("sweep J R --capacity nowhere", None, 1, "nowhere: No such file or directory; give the path"),
    "compressed capacities": ("sweep J R --capacity gzip", None, 1, "gzip: line 1: the bytes are no UTF-8"),
    "a capacity of no link": ("sweep J R --capacity places", None, 1, "places: line 1: '1.1.1.1 east' is no link; a line is a router, "),
    "names that aren't there": ("sweep J R --names nowhere", None, 1, "nowhere: No such file or directory; give the path"),
    "both JSON and CSV": ("sweep J R --json --csv", None, 2, "argument --csv: not allowed with argument --json"),
    "a program that isn't there": ("sweep J R --program nowhere/routed", None, 3, "nowhere/routed: No such file or directory; give"),
    "a full disk for a sweep": ("sweep J R >full", None, 1, "No space left on device; make room"),
    "a compressed network to draw": ("draw gzip", None, 1, f"gzip: {GZIP}"),
    "a header to draw": ("draw header", None, 1, HEADER),
    "an open quotation mark to draw": ("draw quote", None, 1, "with a quotation mark left open in line 1"),
    "a dropped link that isn't there": ("draw absent", None, 1, "batch 11 refused: absent 1; drop only links that are there"),
    "a version that isn't there": ("draw J --version 99", None, 1, "there is no version 99, the last one is 10"),
    "a reply of no lines": ("draw J --ask 1", None, 2, "--ask needs --replies, the lines that it is one of"),
    "positions without numbers": ("draw J --places places", None, 1, "places, line 1: an address, x and y are wanted"),
    "a full disk for a picture": ("draw J >full", None, 1, "No space left on device; make room"),
    "no sweep": ("draw-failures", "nothing", 1, "the sweep isn't whole; give all that sweep prints of single circuits"),
    "a compressed sweep": ("draw-failures", "gzip", 1, GZIP),
    "a journal in place of a sweep": ("draw-failures", "torn", 1, "the sweep isn't whole; give all that sweep prints"),
    "a whole sweep in place of a part": ("join part", None, 1, "give what sweep --part I/N printed, for I from 1 to N"),
    "a compressed part": ("join gzip", None, 1, "a part is no text; unpack it, where it is compressed"),
    "a folder of parts": ("join .", None, 1, "Is a directory; give a file, not a folder"),
    "an import of rows": ("import torn", None, 1, "neither SNDlib's native format nor GraphML"),
    "a compressed import": ("import gzip", None, 1, GZIP),
    "an import of JSON": ("import json", None, 1, JSON),
    "an import in an unknown unit": ("import unit", None, 1, "the unit ERLANG isn't known: "),
    "an import of a folder": ("import .", None, 1, "Is a directory; give a file, not a folder"),
    "an audit of no file": ("audit --journal J --requests R --replies nowhere", None, 3, "nowhere: No such file or directory; give"),
    "an audit of compressed replies": ("audit --journal J --requests R --replies gzip", None, 2, GZIP),
    "nobody listens": ("connect nowhere --wait 0", "nothing", 1, "nowhere: No such file or directory; start the server"),
    "a file in place of a place": ("connect ./torn --wait 0", "nothing", 1, "it is no socket; give a place of routed-tools listen"),
    "no place": ("connect a:b", "nothing", 2, "'a:b' is no place: that is the path of a UNIX socket"),
    "compressed rows to a server": ("connect ./updates", "gzip", 2, GZIP),
    "tabs to a server": ("connect ./updates", "tabs", 2, TABS),
    "changes without an end row": ("connect ./updates", "unended", 2, "unended 1: no end row, dropped; write end,NUMBER,1 behind"),
    "batches that the server has": ("connect ./updates", "absent", 2, "batch 1 refused: expected 11; give the batch the number"),
    "a place that is busy": ("connect ./busy", "nothing", 2, "busy; another program has the place"),
    "no figures": ("status nowhere", None, 1, "start the server with --metrics, or give the place that it was given"),
    "a tool with a typo": ("swep J R", None, 2, "'swep' is no tool, sweep is one: "),
    "no tool": ("", None, 2, "a tool is wanted: listen, "),
    "too many clients": ("listen --journal x --ask a --updates b --clients 65", None, 2, "invalid choice: 65"),
}


def run(room, program, words, given):
    """The status, and standard error."""
    named = {"J": JOURNAL, "R": REQUESTS}
    parts = [named.get(word, word) for word in words.split()]
    out = subprocess.DEVNULL
    if ">full" in parts:
        parts.remove(">full")
        out = os.open("/dev/full", os.O_WRONLY)
    who, python = {}, sys.executable
    if "closed" in parts and os.geteuid() == 0:  # whom no mode stops
        who, python = {"user": NOBODY, "group": NOBODY, "extra_groups": []}, "/usr/bin/python3"
    stdin = open(os.path.join(room, given), "rb") if given else subprocess.DEVNULL
    around = {**os.environ, "ROUTED_PROGRAM": program.path}
    ran = subprocess.run([python, TOOLS, *parts], cwd=room, stdin=stdin, stdout=out, stderr=subprocess.PIPE, env=around, text=True,
                         timeout=PATIENCE, **who)
    return ran.returncode, ran.stderr


def table(program, checks, room):
    """Each mistake of the table, some on the places of a server. The ones on its updates are tried one after the other."""
    files(room)
    with Front(program, room), tempfile.TemporaryDirectory() as other, Front(program, other) as busy:
        os.symlink(busy.updates, os.path.join(room, "busy"))
        holding = Connection(busy.updates)
        holding.talk("end,1,0\n")
        alone = [name for name, (words, *_) in TABLE.items() if "./updates" in words]
        with ThreadPoolExecutor(AT_ONCE) as pool:
            tried = {name: pool.submit(run, room, program, words, given) for name, (words, given, *_) in TABLE.items() if name not in alone}
        for name in alone:
            words, given, *_ = TABLE[name]
            tried[name] = pool_of_one(run, room, program, words, given)
    for name, (_, _, status, wanted) in TABLE.items():
        found, err = tried[name].result()
        last = err.splitlines()[-1:]
        checks.true(f"mistake: {name}", found == status and wanted in "".join(last) and "Traceback" not in err and "Exception" not in err,
                    (found, err[-1000:]))
    checks.true("there are 40 mistakes and more", len(TABLE) >= 40, len(TABLE))


def pool_of_one(call, *given):
    with ThreadPoolExecutor(1) as pool:
        return pool.submit(call, *given)


def accepted(program, checks, room):
    """Rows with carriage returns, with a byte order mark and without a last line feed are served, and a place may come late."""
    with open(JOURNAL, "rb") as file:
        journal = file.read()
    place = os.path.join(room, "updates")
    with subprocess.Popen([sys.executable, TOOLS, "connect", place], stdin=subprocess.PIPE, stdout=subprocess.PIPE,
                          stderr=subprocess.PIPE) as early, Front(program, room) as front:
        out, err = early.communicate(b"\xef\xbb\xbf" + journal.replace(b"\n", b"\r\n").rstrip(), timeout=PATIENCE)
        found = early.returncode, out.splitlines()[-1:], err
        checks.same("carriage returns, and a place that comes late", found, (0, [b"version 10"], b""))
        ran = subprocess.run([sys.executable, TOOLS, "connect", front.ask], input=b"ask,1,1.1.1.1,2.2.2.2,0,0,0x0,0x0,0x0,",
                             capture_output=True, timeout=PATIENCE)
        checks.same("a row without a line feed", (ran.returncode, ran.stdout, ran.stderr), (0, b"ask 1 v10 unknown-from\n", b""))
        endings(checks, room, front, journal.splitlines(keepends=True)[0])


def endings(checks, room, front, change):
    """How connect ends where rows are refused, where a change has no end row, and where rows have names."""
    names = os.path.join(room, "names")
    with open(names, "w") as file:
        file.write("1.1.1.1 north\n2.2.2.2 south\n")
    unended = b"connect: unended 1: no end row, dropped; write end,NUMBER,1 behind the changes\n"
    refused, kinds = b"row 1 refused: kind\n", "a row begins with put, drop, node, end or ask"
    told = f"connect: {front.ask}: row 1 refused: kind; {kinds}\n".encode()
    for name, place, rows, wanted in (
            ("a refused row where clients ask", front.ask, b"foo\n", (2, refused, told)),
            ("a change where clients ask", front.ask, change, (2, refused, told)),
            ("a change with names, of which the last row isn't ended", front.updates, b"drop,north,10.0.0.1", (2, b"", unended)),
            ("a request by names, not ended", front.ask, b"ask,1,north,south,0,0,0x0,0x0,0x0,", (0, b"ask 1 v10 unknown-from\n", b""))):
        ran = subprocess.run([sys.executable, TOOLS, "connect", place, "--names", names], input=rows, capture_output=True, timeout=PATIENCE)
        checks.same(f"connect ends: {name}", (ran.returncode, ran.stdout, ran.stderr), wanted)
    ran = subprocess.run([sys.executable, TOOLS, "connect", front.updates], input=b"foo\n" + change, capture_output=True, timeout=PATIENCE)
    checks.same("connect ends: a refused row and a change without an end row", (ran.returncode, ran.stdout, ran.stderr),
                (2, b"refused\n", f"connect: {front.updates}: refused; {NO_LINE}\n".encode() + unended))
    ran = subprocess.run([sys.executable, TOOLS, "connect", front.updates], input=b"drop,north,10.0.0.1\nend,11,0\n", capture_output=True,
                         timeout=PATIENCE)
    found = ran.returncode, *(re.sub(rb"row \d+", b"row N", stream) for stream in (ran.stdout, ran.stderr))
    checks.same("connect ends: a change is lost, and its batch is taken", found,
                (2, b"row N refused: address 2\nversion 11\n",
                 f"connect: {front.updates}: row N refused: address 2; write four numbers from 0 to 255 with points between\n".encode()))
    rows = "ask,1,1.1.1.1\nfoo\nask,2,1.1.1.1,2.2.2.2,0,0,0x0,0x0,0x0,\n"
    ran = subprocess.run([sys.executable, TOOLS, "connect", front.ask], input=rows, capture_output=True, text=True, timeout=PATIENCE)
    found = ran.returncode, ran.stdout.splitlines()[-1], ran.stderr.partition("; ")[0]
    checks.same("connect ends: two refused rows beside a reply", found,
                (2, "ask 2 v11 unknown-from", f"connect: {front.ask}: 2 lines of this kind, the first: row 1 refused: fields"))


def closed_pipes(program, checks, room):
    """Nobody reads what a tool writes."""
    around = {**os.environ, "ROUTED_PROGRAM": program.path}
    book = os.path.join(room, "book")
    with open(book, "w") as file:
        file.write(planned.nsfnet_book())
    with seen(program, room, "--show", os.path.join(room, "show")) as front:
        Connection(front.updates).talk(PAIR + "end,1,2\n")
        show, metrics = os.path.join(room, "show"), os.path.join(room, "metrics")
        for words in (["sweep", JOURNAL, REQUESTS], ["sweep", JOURNAL, REQUESTS, "--json"], ["sweep", "--book", book, "--csv"],
                      ["draw", JOURNAL], ["import", os.path.join(TOP, "examples/germany.sndlib")], ["--help"], ["completion", "bash"],
                      ["ask", front.ask, "1.1.1.1", "2.2.2.2", "--why", "--show", show], ["ask", front.ask, "1.1.1.1", "2.2.2.2", "--json"],
                      ["show", show], ["show", show, "routers", "--json"], ["book-report", book], ["status", metrics],
                      ["status", metrics, "--watch", "0.1"], ["connect", front.ask], ["listen", "--help"]):
            reading, writing = os.pipe()
            os.close(reading)
            ran = subprocess.run([sys.executable, TOOLS, *words], stdout=writing, stderr=subprocess.PIPE, env=around, text=True,
                                 input="foo\n", timeout=PATIENCE)
            os.close(writing)
            status = 0 if "listen" in words else 141  # argparse drops what it can't write
            checks.same(f"a closed pipe: {' '.join(words[:2] + words[4:])}", (ran.returncode, ran.stderr), (status, ""))
        for words in (["show", show], ["ask", front.ask, "1.1.1.1", "2.2.2.2"], ["book-report", book]):
            with open("/dev/full", "w") as full:
                ran = subprocess.run([sys.executable, TOOLS, *words], stdout=full, stderr=subprocess.PIPE, env=around, text=True,
                                     timeout=PATIENCE)
            checks.true(f"a full disk: {words[0]}", ran.returncode in (1, 3) and ran.stderr ==
                        f"{words[0]}: standard output: write: No space left on device; make room, and run this again\n", ran)


def interrupted(program, checks, room):
    """Ctrl-C: each tool has begun to read when the signal comes, or waits for a server that says nothing."""
    around = {**os.environ, "ROUTED_PROGRAM": program.path}
    fifo, place = os.path.join(room, "fifo"), os.path.join(room, "silent")
    os.mkfifo(fifo)
    for words in (["draw", fifo], ["import", fifo], ["join", fifo], ["sweep", fifo, REQUESTS], ["sweep", "--book", fifo],
                  ["book-report", fifo], ["draw-failures"]):
        child = subprocess.Popen([sys.executable, TOOLS, *words], stdin=subprocess.PIPE, stdout=subprocess.DEVNULL, stderr=subprocess.PIPE,
                                 env=around, text=True)
        held = open(fifo, "w") if fifo in words else child.stdin  # waits until the tool has opened it
        held.write("\n")
        held.flush()
        wait_until(lambda: fcntl.ioctl(held.fileno(), termios.FIONREAD, b"\0" * 4) == b"\0" * 4)
        ends(checks, child, words)
        held.close()
        child.stdin.close()
    with socket.socket(socket.AF_UNIX) as listening:
        listening.bind(place)
        listening.listen()
        for words in (["ask", place, "1.1.1.1", "2.2.2.2"], ["show", place], ["status", place, "--watch", "1"], ["connect", place]):
            child = subprocess.Popen([sys.executable, TOOLS, *words], stdin=subprocess.PIPE, stdout=subprocess.DEVNULL,
                                     stderr=subprocess.PIPE, text=True)
            connection, _ = listening.accept()
            with connection:
                if words[0] != "connect":
                    connection.recv(1)  # it has asked, and waits
                ends(checks, child, words)
            child.stdin.close()


def ends(checks, child, words):
    """The tool ends at SIGINT, without a word."""
    child.send_signal(signal.SIGINT)
    checks.same(f"Ctrl-C: {' '.join(words[:2])}", (child.wait(PATIENCE), child.stderr.read()), (130, ""))
    child.stderr.close()


def wait_until(test):
    end = time.monotonic() + PATIENCE
    while not test() and time.monotonic() < end:
        time.sleep(0.02)


def mistakes(program, checks):
    with tempfile.TemporaryDirectory() as room:
        checks.parts_in(room, (table, accepted, closed_pipes, interrupted), program, checks)
