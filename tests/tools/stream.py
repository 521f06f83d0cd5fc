"""The class of a non-blocking connection: cut at each byte, ended and reset in each state, filled, and handed to other owners."""
import contextlib
import errno
import os
import selectors
import socket
import tempfile

from program.serving import has_come
from tools import fronts

from routed.net.loop import READ, WRITE, Loop
from routed.net.stream import LONGEST, Stream

TEXT = b"ask 1 v7 none\n\nversion 8\r\n" + "Zürich\n".encode() + b"x" * 90 + b"\nno line feed"
LARGE = 3 * LONGEST + 17  # bytes


def stream(_, checks):
    with tempfile.TemporaryDirectory() as room:
        for part in (cut, ended, reset, filled, shared, owned, hung_up):
            for pair in (tcp, unix, pipes):
                checks.part(f"stream: {part.__name__}, {pair.__name__}", part, checks, f"{part.__name__}, {pair.__name__}", pair, room)


# ---- both sides of a connection


class Peer:
    """The other side, which blocks."""

    def __init__(self, source, to=None, socket=None):
        self.source, self.to, self.socket = source, source if to is None else to, socket

    def say(self, data):
        while data:
            data = data[os.write(self.to, data):]

    def hear(self, most=1 << 20):
        return os.read(self.source, most)

    def rest(self):
        """All that still comes, to its end."""
        found = b""
        while data := self.hear():
            found += data
        return found

    def shut(self):
        """Sends no more."""
        if self.socket:
            self.socket.shutdown(socket.SHUT_WR)
        else:
            os.close(self.to)
            self.to = None

    def close(self):
        if self.socket:
            self.socket.close()
        else:
            for file in (self.source, self.to):
                if file is not None:
                    os.close(file)

    def reset(self):
        """Ends both directions at once; over TCP by a reset."""
        if self.socket and self.socket.family == socket.AF_INET:
            fronts.reset(self.socket)
        else:
            self.close()


def tcp(loop, **how):
    with socket.create_server(("127.0.0.1", 0)) as listener:
        peer = socket.create_connection(listener.getsockname())
        return Stream(loop, listener.accept()[0], **how), Peer(peer.fileno(), socket=peer)


def unix(loop, **how):
    one, peer = socket.socketpair()
    return Stream(loop, one, **how), Peer(peer.fileno(), socket=peer)


def pipes(loop, **how):
    (source, their_to), (their_source, to) = os.pipe(), os.pipe()
    return Stream(loop, source, to, **how), Peer(their_source, their_to)


class Reader:
    """An owner that keeps what came, and how often it was called."""

    def __init__(self, stream, read):
        self.stream, self.read, self.found, self.calls, self.ended = stream, read, [], 0, 0
        stream.give(self, self.go_on)
        stream.wait(True)

    def go_on(self, events):
        self.calls += 1
        if events & READ:
            self.found += [self.read()] if self.read != self.stream.lines else self.read()
        if events & WRITE:
            self.stream.flush()
        self.stream.wait(True)

    def named(self):
        return "a reader"

    def fail(self):
        self.ended += 1
        self.stream.close()


def settle(loop):
    """Does all that can be done now."""
    while loop.selector.select(0):
        loop.turn()


# ---- what comes


def cut(checks, name, pair, _):
    """The same bytes and lines come, wherever they are cut."""
    *whole, rest = TEXT.split(b"\n")
    found, wanted = [], [(TEXT, b"".join(line + b"\n" for line in whole), whole, rest)]
    for at in range(len(TEXT) + 1):
        kept = []
        for kind in ("read", "text", "lines"):
            loop = Loop()
            stream, peer = pair(loop)
            reader = Reader(stream, getattr(stream, kind))
            for part in (TEXT[:at], TEXT[at:]):
                peer.say(part)
                settle(loop)
            kept.append(b"".join(reader.found) if kind != "lines" else reader.found)
            unread = stream.unread
            for one in (stream, peer):
                one.close()
        found.append((*kept, unread))
    checks.same(f"{name}: {len(TEXT)} bytes", found, wanted * len(found))


def ended(checks, name, pair, _):
    """The other side sends no more: what it sent is read, then the end, and it is written to on."""
    loop = Loop()
    stream, peer = pair(loop)
    reader = Reader(stream, stream.lines)
    peer.say(TEXT)
    peer.shut()
    settle(loop)
    checks.same(f"{name}: what came before", (reader.found, stream.unread, stream.is_ended, stream.fault),
                (TEXT.split(b"\n")[:-1], b"no line feed", True, None))
    calls = reader.calls
    settle(loop)
    checks.same(f"{name}: its end comes once", reader.calls, calls)
    stream.write(b"still there")
    checks.same(f"{name}: it is written to", peer.hear(), b"still there")
    stream.shut()
    checks.same(f"{name}: an end to each side", peer.rest(), b"")
    stream.close()
    peer.close()
    checks.same(f"{name}: nothing is watched", (loop.keys, stream.is_closed), ({}, True))
    stream.close()  # does nothing


def reset(checks, name, pair, _):
    """The other side goes in each state: the cause is kept, what waits and what is written then is dropped, and the file is closed."""
    def waits(stream, peer):
        stream.write(b"x" * LARGE * 4)

    def is_shut(stream, peer):
        stream.shut()

    def has_ended(stream, peer):
        peer.shut()
        settle(stream.loop.loop)

    def in_a_line(stream, peer):
        peer.say(b"half a li")
        settle(stream.loop.loop)

    def unread(stream, peer):
        peer.say(b"a line\n")

    def waits_and_has_ended(stream, peer):
        waits(stream, peer)
        has_ended(stream, peer)

    causes = {"Connection reset by peer", "Broken pipe"}
    for state in (lambda *_: None, waits, is_shut, has_ended, in_a_line, unread, waits_and_has_ended):
        title = f"{name}, {state.__name__.strip('<>')}"
        loop = Loop()
        stream, peer = pair(loop)
        reader = Reader(stream, stream.lines)
        state(stream, peer)
        stream.wait(True)
        peer.reset()
        settle(loop)
        checks.same(f"{title}: it has ended, and nothing waits", (stream.is_ended, bytes(stream.waiting)), (True, b""))
        if state is not is_shut:
            stream.write(b"a line\n")
            stream.write(b"a line\n")
            checks.true(f"{title}: its cause", stream.why() in causes, stream.why())
            checks.same(f"{title}: what is written then is dropped", bytes(stream.waiting), b"")
        stream.wait(True)
        settle(loop)
        checks.true(f"{title}: it isn't called again and again", reader.calls < 20, reader.calls)
        file = stream.source
        stream.close()
        checks.same(f"{title}: it is closed", (loop.keys, is_open(file), stream.read(), stream.fault.errno), ({}, False, b"", errno.EBADF))


def is_open(file):
    try:
        os.fstat(file)
        return True
    except OSError:
        return False


# ---- what is written


def filled(checks, name, pair, _):
    """What the other side doesn't read waits up to a bound, and comes in order once it reads."""
    loop = Loop()
    stream, peer = pair(loop, most=LARGE)
    reader, sent, numbers = Reader(stream, stream.read), bytearray(), iter(range(1 << 20))
    while not stream.is_full:
        data = b"".join(b"line %d\n" % next(numbers) for _ in range(1000))
        sent += data
        stream.write(data)
        stream.wait(True)
        settle(loop)
    checks.true(f"{name}: as much waits as may", LARGE <= len(stream.waiting) < LARGE + len(data), len(stream.waiting))
    calls = reader.calls
    settle(loop)
    checks.same(f"{name}: a stream that is full isn't called", reader.calls, calls)
    found = bytearray()
    while len(found) < len(sent):
        found += peer.hear()
        settle(loop)
    checks.true(f"{name}: all comes in order", found == sent, (len(found), len(sent)))
    checks.same(f"{name}: nothing waits", (stream.is_full, bytes(stream.waiting), loop.keys[stream.source].events), (False, b"", READ))
    peer.say(b"and back")
    settle(loop)
    checks.same(f"{name}: and it is read", reader.found, [b"and back"])
    if stream.socket:
        peer.socket.shutdown(socket.SHUT_WR)
        settle(loop)
        stream.write(bytes(sent))
        stream.wait(True)
        found = bytearray()
        while len(found) < len(sent) and has_come(peer.source, 1):
            found += peer.hear()
            settle(loop)
        checks.true(f"{name}: where the other side has ended its own", stream.is_ended and found == sent, (len(found), len(sent)))
    for one in (stream, peer):
        one.close()


def shared(checks, name, pair, room):
    """Files whose flags others see: their flags stay, and no write blocks."""
    loop = Loop(selector=selectors.PollSelector())
    stream, peer = pair(loop, is_shared=True)
    checks.same(f"{name}: its flags", {os.get_blocking(file) for file in (stream.source, stream.to)}, {True})
    reader = Reader(stream, stream.lines)
    sent, found = 0, 0
    while len(stream.waiting) < LARGE:
        stream.write(b"x" * 5000)
        sent += 5000
        stream.wait(True)
        settle(loop)
    while found < sent:
        found += len(peer.hear())
        settle(loop)
    checks.same(f"{name}: all of it comes", (found, bytes(stream.waiting)), (sent, b""))
    peer.say(b"one\ntwo\nhal")
    settle(loop)
    checks.same(f"{name}: lines", (reader.found, stream.unread), ([b"one", b"two"], b"hal"))
    peer.reset()
    settle(loop)
    checks.same(f"{name}: the end", stream.is_ended, True)
    stream.close()
    path = os.path.join(room, name)
    with open(path, "wb") as file:
        file.write(TEXT)
    with open(path, "rb") as source, open(f"{path} copy", "wb") as to:
        stream = Stream(loop, os.dup(source.fileno()), os.dup(to.fileno()), is_shared=True)
        reader = Reader(stream, stream.read)
        while not stream.is_ended:
            loop.turn()
        stream.write(b"".join(reader.found))
        stream.close()
    with open(f"{path} copy", "rb") as copy:
        checks.same(f"{name}: a regular file", copy.read(), TEXT)
    checks.same(f"{name}: nothing is watched", loop.keys, {})


# ---- whose it is


def owned(checks, name, pair, _):
    """An exception ends the owner that a stream has then, and no other."""
    said = []
    loop = Loop(said.append)
    (first, peer), (second, other) = pair(loop), pair(loop)
    one, two = Reader(first, lambda: 1 // 0), Reader(second, second.read)
    for each in (peer, other):
        each.say(b"x")
    settle(loop)
    checks.same(f"{name}: owners that ended", (one.ended, two.ended, first.is_closed, two.found), (1, 0, True, [b"x"]))
    checks.true(f"{name}: a line", len(said) == 1 and said[0].startswith("a reader: ended by an exception, ZeroDivisionError at "), said)
    three = Reader(second, second.lines)
    other.say(b"y\n")
    settle(loop)
    checks.same(f"{name}: another owner", (two.found, three.found), ([b"x"], [b"y"]))
    second.give(None, lambda _: 1 // 0)
    second.wait(True)
    other.say(b"z")
    with contextlib.suppress(ZeroDivisionError):
        settle(loop)
        checks.fail(f"{name}: what no owner has goes on")
    for each in (second, peer, other):
        each.close()


def hung_up(checks, name, pair, _):
    """The last bytes come, and their end, while the other side still sends; then it is closed."""
    for is_late in (False, True):
        loop = Loop()
        stream, peer = pair(loop)
        reader = Reader(stream, stream.read)
        peer.say(b"x" * 1000)
        stream.hang_up(b"the last line\n")
        for _ in range(20):
            peer.say(b"x" * 1000)
            settle(loop)
        checks.same(f"{name}: its last bytes", (peer.rest(), reader.found, stream.is_closed), (b"the last line\n", [], False))
        if is_late:
            loop.times[:] = [(0, *rest) for _, *rest in loop.times]
            loop.turn()
        else:
            peer.close()
            settle(loop)
        checks.same(f"{name}: it is closed", (stream.is_closed, loop.keys), (True, {}))
        if is_late:
            peer.close()
