"""A run of `routed serve` with its clients, and judgements of what they read."""
import itertools
import os
import re
import select
import subprocess
import time

ROUTERS, BATCHES = 12, 60
CLIENTS = 64  # the most of one run
MOMENT, PATIENCE = 0.01, 60  # seconds: between batches and before a kill at most, and that a line is awaited
AT = re.compile(r"(?:ask|except|pair) \d+ v(\d+) ")


def has_come(file, seconds):
    """Whether something can be read of a file within so many seconds. Its number may be any, which `select` doesn't allow."""
    waiting = select.poll()
    waiting.register(file, select.POLLIN)
    return bool(waiting.poll(seconds * 1000))


class Lines:
    """The lines of a stream, each awaited."""

    def __init__(self, file):
        self.file, self.left = file, b""

    def next(self):
        """The next line, or what stands behind the last one, '' at the end."""
        while b"\n" not in self.left:
            if not has_come(self.file, PATIENCE):
                raise TimeoutError(f"no line in {PATIENCE} s")
            more = os.read(self.file, 1 << 16)
            if not more:
                break
            self.left += more
        line, feed, self.left = self.left.partition(b"\n")
        return (line + feed).decode("latin-1")

    def rest(self):
        return list(iter(self.next, ""))


class Serving:
    """A run of `routed serve`: its stream 0 is that of the updates, and the others are those of clients, over pipes with names."""

    def __init__(self, program, room, clients, *more, stdin=subprocess.PIPE, stdout=subprocess.PIPE, **how):
        self.journal, self.killed = os.path.join(room, "journal"), False
        self.rows, self.lines, words = [None], [None], [program.path, "serve", "--journal", self.journal, *more]
        for number in range(1, clients + 1):
            names = [os.path.join(room, f"{kind}{number}") for kind in ("rows", "lines")]
            for name in names:
                os.mkfifo(name)
            self.rows.append(os.open(names[0], os.O_RDWR))  # both ends, so that this doesn't wait for the run
            self.lines.append(Lines(os.open(names[1], os.O_RDONLY | os.O_NONBLOCK)))
            os.set_blocking(self.lines[-1].file, True)
            words += ["--client", "=".join(names)]
        self.child = subprocess.Popen(words, stdin=stdin, stdout=stdout, stderr=subprocess.PIPE, bufsize=0, **how)
        if stdin == subprocess.PIPE:
            self.rows[0] = os.dup(self.child.stdin.fileno())
            self.child.stdin.close()
        if stdout == subprocess.PIPE:
            self.lines[0] = Lines(os.dup(self.child.stdout.fileno()))
            self.child.stdout.close()

    def __enter__(self):
        """Waits for the journal, which is opened last."""
        end = time.monotonic() + PATIENCE
        while not os.path.exists(self.journal) and self.child.poll() is None and time.monotonic() < end:
            time.sleep(0.0005)
        return self

    def __exit__(self, *fault):
        self.child.kill()
        self.child.wait()
        self.child.stderr.close()
        for number in range(len(self.rows)):
            self.close_rows(number)
            self.close_lines(number)

    def say(self, number, rows):
        data = rows.encode("latin-1")
        while data:
            data = data[os.write(self.rows[number], data):]

    def hear(self, number):
        return self.lines[number].next()

    def talk(self, number, rows):
        self.say(number, rows)
        return self.hear(number)

    def close_rows(self, number):
        if self.rows[number] is not None:
            os.close(self.rows[number])
        self.rows[number] = None

    def close_lines(self, number):
        if self.lines[number] is not None:
            os.close(self.lines[number].file)
        self.lines[number] = None

    def leave(self, number):
        """Ends a stream's rows, and hears its lines to their end."""
        self.close_rows(number)
        return "".join(self.lines[number].rest())

    def end(self):
        """Ends all streams: what each still says, that of the updates first; the status, and standard error."""
        for number in range(len(self.rows)):
            self.close_rows(number)
        said = ["".join(lines.rest()) for lines in self.lines if lines]
        return said, self.child.wait(PATIENCE), self.child.stderr.read().decode()

    def kept(self):
        """What the journal holds."""
        with open(self.journal, encoding="latin-1") as kept:
            return kept.read()


def batches_of(versions):
    """The rows of each batch, as one text."""
    return [text[len(before):] for before, text in itertools.pairwise(versions.texts)]


def ask_on(run, number, versions, told, done, found):
    """Asks on one client until it is done or the run ends: each line with the version that was told before its row was written."""
    for at in itertools.count():
        if done.is_set() and at % len(versions.asks) == 0:
            return
        before = told[0]
        try:
            line = run.talk(number, f"{versions.asks[at % len(versions.asks)]}\n")
        except (BrokenPipeError, TimeoutError) as fault:
            line = str(fault)
        if run.killed and not line.endswith("\n"):
            return
        found.append((before, line))
        if not line.endswith("\n"):  # the check of its replies fails
            return


def judged(checks, name, versions, found, last=None):
    """Each reply is the reference's at its version, which doesn't fall, isn't below what was told before, nor above the last one."""
    least, right = 0, versions.are_right([line.rstrip("\n") for _, line in found])
    for before, line in found:
        named = AT.match(line)
        version = int(named[1]) if named else -1
        right, least = right and version >= max(before, least), version
    checks.true(name, right and (last is None or least <= last), (last, found[-3:]))
    return least


def wait_for(test):
    end = time.monotonic() + PATIENCE
    while not test() and time.monotonic() < end:
        time.sleep(0.0005)


def circuit_at(version):
    """The batch of this number, which gives a circuit that metric from its first end."""
    near, far, rest = "1.1.1.1,10.0.12.1", "2.2.2.2,10.0.12.2", "0x00000001,5,5,5,5,5,5,5,5"
    return f"put,{near},{far},{version},{rest}\nput,{far},{near},10,{rest}\nend,{version},2\n"


def reply_at(name, version):
    """The reply to a request over that circuit."""
    return f"ask {name} v{version} route cost={version} hops=1 again=no ero=000c140101080a000c022000\n"
