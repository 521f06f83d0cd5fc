"""Files and devices that a run reads and writes, words of the command line, and rows that no one means to send."""
import os
import resource
import signal
import subprocess
import tempfile

from checks import TOP
from program.built import ASK, CIRCUIT, LINK, MASKS, REPLY, status_of


def files(program, checks):
    """Files that can't be read stop a run; a file may be given twice; too many rows are refused in either."""
    stopped = (3, b"", b"routed: stopped\n")
    journal = CIRCUIT.encode()
    with tempfile.TemporaryDirectory() as room:
        def kept(name, text):
            path = os.path.join(room, name)
            with open(path, "wb") as file:
                file.write(text)
            return path

        def batch(first, second, *words, **more):
            return program.run(["batch", "--journal", first, "--requests", second, *words], **more)

        whole, asks, empty = kept("whole", journal), kept("asks", ASK.encode()), kept("empty", b"")
        absent, pipe = os.path.join(room, "absent"), os.path.join(room, "pipe")
        os.mkfifo(pipe)
        answered = (0, ("version 1\n" + REPLY).encode(), b"")
        checks.same("a journal and requests", batch(whole, asks), answered)
        checks.same("a journal that isn't there", batch(absent, asks), stopped)
        checks.same("requests that aren't there", batch(whole, absent), stopped)
        checks.same("a folder as a journal", batch(room, asks), stopped)
        checks.same("a folder as requests", batch(whole, room), stopped)
        # nobody writes to the pipe, so that opening it would wait: the journal is opened first
        checks.same("the journal is opened first", batch(absent, pipe, timeout=60), stopped)
        checks.same("one file as both", batch(whole, whole), (2, b"request row 1 refused: kind\n", b""))
        checks.same("an empty file as both", batch(empty, empty), (0, b"", b""))
        checks.same("standard input isn't read", batch(whole, asks, rows=b"foo\n"), answered)
        drop = b"drop,1.1.1.1,10.0.0.1\n"
        checks.same("1,000,000 rows of a journal", program.batch(drop * 1_000_000, b""), (2, b"journal torn after 0\n", b""))
        for words in [(), ("--accept-torn",)]:
            checks.same(f"1,000,001 rows of a journal {words}", program.batch(drop * 1_000_001, b"foo\n", *words),
                        (2, b"too many rows\n", b""))
        checks.same("1,000,001 requests", program.batch(b"", ASK * 1_000_001), (2, b"too many rows\n", b""))
        checks.same("a bad row before too many", program.batch(b"", b"foo\n" * 1_000_001),
                    (2, b"request row 1 refused: kind\n", b""))
        with open("/dev/full", "wb") as full:
            ran = subprocess.run([program.path, "batch", "--journal", whole, "--requests", asks], stdout=full,
                                 stderr=subprocess.PIPE)
            checks.same("standard output of a batch is full", (ran.returncode, ran.stderr), (3, b"routed: stopped\n"))


def malformed(program, checks):
    """Streams that no one means to send: each has its named refusals, and none ends the program."""
    link = LINK.encode()
    for name, rows, lines in [
        ("a quote that never closes", b'"put,1.1.1.1\nend,1,0\n', b"row 1 refused: kind\n"),
        ("quoted fields", link.replace(b"put", b'"put"') + b"end,1,1\n", b"version 1\n"),
        ("NUL bytes", b"\0\nend,1\0,0\n", b"row 1 refused: kind\nrow 2 refused: number 2\n"),
        ("no UTF-8", b"\xff\xfe\xc0\nend,1,\x80\n", b"row 1 refused: kind\nrow 2 refused: number 3\n"),
        ("a byte order mark", b"\xef\xbb\xbfend,1,0\n", b"version 1\n"),
        ("a mark in the second row", b"end,1,0\n\xef\xbb\xbfend,2,0\n", b"version 1\nrow 2 refused: kind\n"),
        ("empty lines are no rows", b"\n\n\nend,1,0\n\nfoo\n", b"version 1\nrow 2 refused: kind\n"),
        ("carriage returns", b"end,1,0\r\nend,2,0\r\n", b"version 1\nversion 2\n"),
        ("no last line feed", b"end,1,0", b"version 1\n"),
        ("a thousand fields", b",".join([b"put"] * 1000) + b"\nend,1,0\n", b"row 1 refused: fields\nversion 1\n"),
        ("a field of a megabyte", b"drop," + b"1" * 1_000_000 + b",10.0.0.1\nend,1,0\n", b"row 1 refused: address 2\nversion 1\n"),
        ("a number of a megabyte", b"end," + b"9" * 1_000_000 + b",0\n", b"row 1 refused: number 2\n"),
        ("an object of a megabyte", f"ask,1,1.1.1.1,2.2.2.2,0,1,{MASKS},ero:".encode() + b"00" * 500_000 + b"\n",
         b"row 1 refused: hops ero length\n"),
    ]:
        checks.same(name, program.solve(rows), (status_of(lines), lines, b""))


def command_line(program, checks):
    """What isn't a command is refused on standard error, and so is a line that asks for help."""
    audited = ["audit", "--journal", "/dev/null", "--requests", "/dev/null", "--replies", "/dev/null"]
    for words in [[], ["--help"], ["-h"], ["help"], ["solve", "--help"], ["help", "solve"], ["--version"],
                  ["sovle"], ["solve", "more"], ["solve", "--rows"], ["--solve"], [""],
                  ["batch"], ["batch", "--help"], ["batch", "--journal", "/dev/null"], ["batch", "--requests", "/dev/null"],
                  ["batch", "--journal", "/dev/null", "--requests"], ["batch", "/dev/null", "/dev/null"],
                  ["batch", "--journal", "/dev/null", "--requests", "/dev/null", "more"],
                  ["batch", "--journal", "/dev/null", "--requests", "/dev/null", "--accept-torn=yes"],
                  ["batch", "--journal", "/dev/null", "--journal", "/dev/null", "--requests", "/dev/null"],
                  ["solve", "--journal", "/dev/null"], ["solve", "--workers", "2"],
                  *(["batch", "--journal", "/dev/null", "--requests", "/dev/null", "--workers", n]
                    for n in ["0", "65", "x", "", "-1", "1.5", "256", "18446744073709551617"]),
                  ["live"], ["live", "--help"], ["live", "--updates", "/dev/null", "--requests", "/dev/null"],
                  ["live", "--updates", "/dev/null", "--requests", "/dev/null", "--journal", "/nowhere/journal", "--workers", "0"],
                  ["live", "--updates", "/dev/null", "--requests", "/dev/null", "--journal", "/nowhere/journal", "--accept-torn"],
                  ["audit"], ["audit", "--help"], ["audit", "--journal", "/dev/null", "--requests", "/dev/null"],
                  ["audit", "--journal", "/dev/null", "--replies", "/dev/null"],
                  ["audit", "--requests", "/dev/null", "--replies", "/dev/null"],
                  *([*audited, *more] for more in [["more"], ["--workers", "2"], ["--accept-torn"], ["--updates", "/dev/null"],
                                                   ["--replies", "/dev/null"]]),
                  ["batch", "--journal", "/dev/null", "--requests", "/dev/null", "--replies", "/dev/null"]]:
        status, out, err = program.run(words, LINK)
        checks.true(f"refused: {words}", status == 1 and out == b"" and err != b"", f"{status} {out} {err}")
    status, out, err = program.run([b"\xff"], LINK)
    checks.true("words that are no text", status == 1 and out == b"" and err != b"", f"{status} {out} {err}")
    _, _, text = program.run(["solve", "--help"])
    for word in [b"put", b"drop", b"node", b"end", b"ask", b"status", b"--explain", b"length that fits in memory", b"blocking", b"head -1"]:
        checks.true(f"help names {word.decode()}", word in b" ".join(text.lower().split()), text)
    _, _, text = program.run(["batch", "--help"])
    for word in [b"--journal", b"--requests", b"--accept-torn", b"--workers", b"status", b"--explain", b"utf-8",
                 b"length that fits in memory",
                 b"blocking"]:
        checks.true(f"help of batch names {word.decode()}", word in b" ".join(text.lower().split()), text)
    _, _, text = program.run(["live", "--help"])
    for word in [b"--updates", b"--journal", b"--requests", b"--workers", b"applied", b"status", b"--explain", b"utf-8",
                 b"journal stays empty",
                 b"version 0", b"trap '' xfsz", b"length that fits in memory", b"blocking"]:
        checks.true(f"help of live names {word.decode()}", word in b" ".join(text.lower().split()), text)
    _, _, text = program.run(["audit", "--help"])
    for word in [b"--journal", b"--requests", b"--replies", b"unread", b"foreign", b"doubled", b"no-version", b"altered", b"unanswered",
                 b"good=",
                 b"same-id", b"status", b"--explain", b"utf-8", b"length that fits in memory", b"blocking"]:
        checks.true(f"help of audit names {word.decode()}", word in b" ".join(text.lower().split()), text)
    with open(os.path.join(TOP, "VERSION"), "rb") as version:
        checks.same("routed --version", program.run(["--version"])[2], b"routed " + version.read())


def devices(program, checks):
    """A device that fails ends the program with status 3 and one line; what was written before stands."""
    stopped = (3, b"routed: stopped\n")
    rows = (CIRCUIT + ASK).encode()

    def fault(name, **streams):
        child = subprocess.Popen([program.path, "solve"], stderr=subprocess.PIPE, **streams)
        _, err = child.communicate(rows if streams.get("stdin") == subprocess.PIPE else None)
        checks.same(name, (child.returncode, err), stopped)

    with open("/dev/full", "wb") as full:
        fault("standard output is full", stdin=subprocess.PIPE, stdout=full)
    reader, writer = os.pipe()
    os.close(reader)
    fault("the reader of standard output is gone", stdin=subprocess.PIPE, stdout=writer)
    os.close(writer)
    reader, writer = os.pipe()
    os.set_blocking(writer, False)
    try:
        while os.write(writer, b"." * 4096):
            pass
    except BlockingIOError:
        fault("standard output is full and doesn't block", stdin=subprocess.PIPE, stdout=writer)
    os.close(reader)
    os.close(writer)
    folder = os.open(TOP, os.O_RDONLY)
    fault("standard input is a folder", stdin=folder, stdout=subprocess.DEVNULL)
    os.close(folder)
    with tempfile.NamedTemporaryFile() as source:
        source.write(rows)
        source.flush()
        ran = subprocess.run(["sh", "-c", f'"{program.path}" solve < "{source.name}" >&-'], capture_output=True)
        checks.same("standard output is closed", (ran.returncode, ran.stderr), stopped)
    with tempfile.TemporaryDirectory() as room:
        out = os.path.join(room, "out")
        # room for the first line and four bytes of the second, then the device refuses
        def narrow():
            signal.signal(signal.SIGXFSZ, signal.SIG_IGN)
            resource.setrlimit(resource.RLIMIT_FSIZE, (14, 14))

        with open(out, "wb") as written:
            child = subprocess.Popen([program.path, "solve"], stdin=subprocess.PIPE, stdout=written,
                                     stderr=subprocess.PIPE, preexec_fn=narrow)
            _, err = child.communicate(rows)
        checks.same("what was written before a fault", (child.returncode, err, open(out, "rb").read()),
                    (*stopped, b"version 1\nask "))


def dialogue(program, checks):
    """Each line is on standard output before the next row is sent."""
    child = subprocess.Popen([program.path, "solve"], stdin=subprocess.PIPE, stdout=subprocess.PIPE, bufsize=0)
    reader = os.fdopen(os.dup(child.stdout.fileno()), "rb")
    for rows, line in [(CIRCUIT, "version 1\n"), (ASK, REPLY), ("foo\n", "row 5 refused: kind\n"),
                       ("drop,2.2.2.2,10.0.12.2\nend,2,1\n", "version 2\n"),
                       (ASK, "ask 7 v2 none\n"), ("drop,1.1.1.1,10.0.12.1\nend,3,1\n", "version 3\n"), (ASK, "ask 7 v3 unknown-from\n")]:
        child.stdin.write(rows.encode())
        checks.same(f"a dialogue: {rows[:8].strip()}", reader.readline().decode(), line)
    child.stdin.close()
    checks.same("the dialogue's end", (reader.read(), child.wait()), (b"", 2))
