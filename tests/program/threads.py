"""`routed serve` and `routed-tools listen` where the system refuses threads: nothing is read, published or answered, and a client without
one is named.

Each thread of 8 clients is refused, and some of 64, alone and with all later ones (tests/program/refuse.c). And a user has fewer than there
are clients. Nor does `serve` end by a signal where its stack or its address space is small.
"""
import array
import contextlib
import fcntl
import itertools
import os
import re
import resource
import shutil
import subprocess
import tempfile
import termios
import time

from checks import TOP
from program.refusal import COMPILER, Refuser
from program.serving import CLIENTS, PATIENCE
from reference import runs
from tools.fronts import Front

FEW, SOME = 8, (1, 2, CLIENTS // 2, CLIENTS - 1, CLIENTS)  # clients of which each thread is refused, and those of 64 that are
MOST = 20  # threads of a user, fewer than 64
NOBODY = 65534  # a user without rights
KIB, MIB = 1 << 10, 1 << 20
STACKS = (512 * KIB, MIB, 4 * MIB)  # with which 64 clients have to be answered on a network of full size
SPACES = (*range(12, 128), *range(128, 832, 3))  # MiB of address space with which no run may end by a signal
ROUTERS, REACH = 1024, 8  # of the network: each router has a circuit to as many that follow it in a ring
UPDATES, ASK = b"end,1,0\n", b"ask,7,1.1.1.1,2.2.2.2,0,5,0x0,0x0,0x0,\n"
NAMED = r"routed: client ([1-9]\d*): no thread\nrouted: stopped\n"


def threads(program, checks):
    start = time.monotonic()
    with tempfile.TemporaryDirectory() as room:
        def folder(name):
            os.mkdir(os.path.join(room, name))
            return os.path.join(room, name)

        if COMPILER is None:
            print("threads: none is refused by its number, for there is no C compiler")
        else:
            refuser = Refuser()
            answered(program, checks, refuser, folder("answered"))
            one_by_one(program, checks, refuser, folder("few"), FEW, range(1, FEW + 1))
            one_by_one(program, checks, refuser, folder("many"), CLIENTS, SOME)
            listening(program, checks, refuser, folder("listening"))
        of_a_user(program, checks, folder("user"), room)
        in_small_stacks(program, checks, folder("stacks"))
        in_small_spaces(program, checks, folder("spaces"))
    print(f"threads: those of {FEW} and of {CLIENTS} clients, {time.monotonic() - start:.0f} s")


# ---- runs


class Inputs:
    """Named pipes with the rows of the updates and of each client. They end once they are closed."""

    def __init__(self, room, clients, asks=ASK):
        self.paths, self.files = [os.path.join(room, f"rows{number}") for number in range(clients + 1)], []
        for path, rows in zip(self.paths, [UPDATES] + [asks] * clients):
            os.mkfifo(path)
            self.files.append(os.open(path, os.O_RDWR))
            os.write(self.files[-1], rows)

    def are_whole(self):
        """Whether nothing was read."""
        found, size = [], array.array("i", [0])
        for file in self.files:
            fcntl.ioctl(file, termios.FIONREAD, size)
            found.append(size[0])
        return found == [len(UPDATES)] + [len(ASK)] * (len(self.files) - 1)

    def close(self):
        while self.files:
            os.close(self.files.pop())


def files(room, clients):
    """Files with a request of each client."""
    paths = [os.path.join(room, f"asks{number}") for number in range(1, clients + 1)]
    for path in paths:
        with open(path, "wb") as file:
            file.write(ASK)
    return paths


def serving(path, room, ins):
    """The words of a run with these clients, its journal, and the files of their lines."""
    journal, outs = os.path.join(room, "journal"), [os.path.join(room, f"lines{number}") for number in range(1, len(ins) + 1)]
    clients = [word for pair in zip(ins, outs) for word in ("--client", "=".join(pair))]
    return [path, "serve", "--explain", "--journal", journal, *clients], journal, outs


def named(said, end=""):
    """The client without a thread that standard error names, None where it isn't that line, the last one of a run and this end."""
    found = re.fullmatch(NAMED + re.escape(end), said)
    return int(found[1]) if found else None


def sizes(*paths):
    return {os.path.getsize(path) if os.path.exists(path) else None for path in paths}


def forget(path):
    if os.path.exists(path):
        os.remove(path)


def kept(path):
    with open(path, encoding="ascii") as file:
        return file.read()


# ---- the threads of a run, by their numbers


def answered(program, checks, refuser, room):
    """A client takes one thread, and where none of these is refused each is answered."""
    updates = os.path.join(room, "updates")
    with open(updates, "wb") as file:
        file.write(UPDATES)
    words, journal, outs = serving(program.path, room, files(room, FEW))
    checks.same(f"{FEW} clients have a thread each", refuser.run(words, "thread", FEW + 1, "on", stdin=updates),
                (0, b"version 1\n", b"", FEW, 0))
    checks.same("they are answered", {re.sub("v[01]", "v", kept(path)) for path in outs}, {"ask 7 v unknown-from\n"})
    checks.same("the journal beside them", kept(journal), UPDATES.decode())


def one_by_one(program, checks, refuser, room, clients, numbers):
    """A run without this thread names the client whose it is. Without it and all later ones it names one of theirs."""
    whose = {}
    with contextlib.closing(Inputs(room, clients)) as inputs:
        words, journal, outs = serving(program.path, room, inputs.paths[1:])
        for flags, at in itertools.product(((), ("on",)), numbers):
            ran, name = refuser.run(words, "thread", at, *flags, stdin=inputs.paths[0]), f"thread {at} of {clients} clients refused {flags}"
            client = named(ran.err.decode())
            checks.same(name, (ran.fault(), ran.status, ran.out, client is None and ran.err), (None, 3, b"", False))
            if not flags:
                whose[at] = client
            elif len(numbers) == clients:
                checks.true(f"{name}: the client has none", client in {whose[later] for later in range(at, clients + 1)}, (client, whose))
            checks.true(f"{name}: nothing is read", inputs.are_whole())
            checks.same(f"{name}: nothing is written", sizes(journal, *outs), {0})
            forget(journal)
            if ran.status is None:  # the others wouldn't end, too
                break
    theirs = {*range(1, clients + 1)} & {*whose.values()}
    checks.same(f"clients whose threads are refused, of {clients}", len(theirs), len(numbers))


def listening(program, checks, refuser, room):
    """`routed-tools listen` isn't ready then: it ends as its server does, and leaves no socket."""
    class Refused:
        path = os.path.join(room, "routed")

    for at in range(1, FEW + 1):
        for more in ("", "REFUSE_ON=1 "):
            with open(Refused.path, "w", encoding="utf-8") as script:
                script.write(f"#!/bin/sh\nLD_PRELOAD='{refuser.library}' REFUSE_CALL=thread REFUSE_AT={at} {more}exec '{program.path}' "
                             "\"$@\"\n")
            os.chmod(Refused.path, 0o700)
            with Front(Refused, room, "--clients", str(FEW)) as front:
                status, said = front.ended()
                name = f"routed-tools listen without thread {at} {more}"
                checks.same(name, (front.first, status), ("", 3))
                checks.true(f"{name}: a client is named", named(said, f"listen: {Refused.path} ended with status 3\n") in range(1, FEW + 1),
                            said)
                checks.same(f"{name}: what is left", (sorted(os.listdir(room)), sizes(front.journal)), (["journal", "routed"], {0}))
            forget(front.journal)


# ---- small stacks and address spaces


def full_network():
    """The rows of 16,384 links between 1,024 routers, four batches of the most changes, and some requests with seven hops."""
    free = ",".join(["1000"] * 8)
    puts = []
    for near in range(ROUTERS):
        for step in range(1, REACH + 1):
            far = (near + step) % ROUTERS
            ends = [(address(2, near), address(10 + step, near)), (address(2, far), address(30 + step, near))]
            for (start, local), (end, remote) in (ends, ends[::-1]):
                puts.append(f"put,{start},{local},{end},{remote},{step * step + near % 7},0x1,{free}\n")
    rows = "".join("".join(puts[at:at + 4096]) + f"end,{at // 4096 + 1},4096\n" for at in range(0, len(puts), 4096))
    hops = " ".join(f"{address(2, at)}/32l" for at in (900, 100, 800, 200, 700, 300, 600))
    return rows, (f"ask,1,{address(2, 0)},{address(2, 512)},0,5,0x0,0x0,0x0,\n"
                  f"ask,2,{address(2, 1)},{address(2, 500)},7,5,0x0,0x0,0x0,{hops}\n")


def address(top, number):
    return f"{top}.0.{number >> 8}.{number & 255}"


def within(kind, most):
    """What gives a run this limit."""
    return lambda: resource.setrlimit(kind, (most, most))


def in_small_stacks(program, checks, room):
    """64 clients are answered on a network of full size."""
    rows, asks = full_network()
    lines = "".join(f"{line}\n" for line in runs.solve(rows + asks)[1][-2:])
    for stack in STACKS:
        with contextlib.closing(Inputs(room, CLIENTS, b"")) as inputs:
            words, journal, outs = serving(program.path, room, inputs.paths[1:])
            with subprocess.Popen(words, stdin=subprocess.PIPE, stdout=subprocess.PIPE, stderr=subprocess.PIPE, text=True,
                                  preexec_fn=within(resource.RLIMIT_STACK, stack)) as run:
                said = []
                with contextlib.suppress(BrokenPipeError):
                    run.stdin.write(rows)
                    run.stdin.flush()
                    said = [run.stdout.readline() for _ in range(4)]
                for file in inputs.files[1:]:
                    os.write(file, asks.encode())
                inputs.close()
                rest, err = run.communicate(timeout=PATIENCE)
            name = f"{CLIENTS} clients with a stack of {stack // KIB} KiB"
            checks.same(name, (run.returncode, said, rest, err), (0, [f"version {number}\n" for number in range(1, 5)], "", ""))
            checks.same(f"{name}: their lines", {kept(path) for path in outs}, {lines})
        for path in (journal, *outs, *inputs.paths):
            forget(path)


def in_small_spaces(program, checks, room):
    """A run is whole, or it is stopped for want of memory or of a thread."""
    words, journal, outs = serving(program.path, room, files(room, CLIENTS))
    found = {}
    for space in SPACES:
        ran = subprocess.run(words, input=UPDATES, capture_output=True, timeout=PATIENCE,
                             preexec_fn=within(resource.RLIMIT_AS, space * MIB))
        found.setdefault(ran.returncode, []).append(space)
        if ran.returncode == 3:
            checks.true(f"{space} MiB of address space: it says that it is stopped", ran.stderr.endswith(b"routed: stopped\n"), ran.stderr)
        for path in (journal, *outs):
            forget(path)
    checks.same("how runs end in a small address space", sorted(found), [0, 3])
    checks.true("the largest is enough", SPACES[-1] in found.get(0, []), found)


# ---- a user's limit


def limit():
    """No user has more threads than these, but root. Whoever has as many already gets none."""
    resource.setrlimit(resource.RLIMIT_NPROC, (MOST, MOST))
    if os.geteuid() == 0:
        os.setgroups([])
        os.setgid(NOBODY)
        os.setuid(NOBODY)


def of_a_user(program, checks, room, above):
    """A user may have fewer threads than a run has clients."""
    path = os.path.join(room, "routed")
    shutil.copy(program.path, path)  # nobody may not reach where it was built
    words, journal, outs = serving(path, room, files(room, CLIENTS))
    for name in ("python", "tools"):
        shutil.copytree(os.path.join(TOP, name), os.path.join(room, name), ignore=shutil.ignore_patterns("__pycache__"))
    subprocess.run(["chmod", "-R", "a+rwX", above], check=True)
    how = {"cwd": room, "capture_output": True, "timeout": PATIENCE, "preexec_fn": limit}
    ran = subprocess.run(words, input=UPDATES, **how)
    checks.same("the status without a thread for each client", (ran.returncode, ran.stdout), (3, b""))
    checks.true("a client without a thread is named", named(ran.stderr.decode()) in range(1, CLIENTS + 1), ran.stderr)
    checks.same("nothing is written then", sizes(journal, *outs), {0})
    forget(journal)
    if os.geteuid() != 0:
        print("threads: routed-tools listen isn't tried as a user of few threads, which needs root")
        return
    ran = subprocess.run(["tools/routed-tools", "listen", "--program", path, "--journal", journal, "--ask", "./ask", "--updates",
                          "./updates"], **how)
    checks.same("routed-tools listen without a thread for each client", (ran.returncode, ran.stdout), (3, b""))
    client = named(ran.stderr.decode(), f"listen: {path} ended with status 3\n")
    checks.true("a client of routed-tools listen without a thread is named", client in range(1, CLIENTS + 1), ran.stderr)
    left = sorted(name for name in os.listdir(room) if not name.startswith(("asks", "lines")))
    checks.same("what is left then", (left, sizes(journal)), (["journal", "python", "routed", "tools"], {0}))
