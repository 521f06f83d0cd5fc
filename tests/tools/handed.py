"""Direct connections to `routed-tools listen` whose server is this file: what the two ends are, and how a session ends beside a server that
doesn't read, or writes what nobody reads."""
import contextlib
import fcntl
import gc
import os
import socket

from tools.directed import WORD
from tools.streams import Streams, asks, lines

from routed.front.direct import QUOTE, Directs

ROWS = asks(0, 3)
MUCH = 1 << 20  # bytes of lines that nobody reads
WAYS = "it ends its rows", "it hangs up", "it ends its rows and hangs up", "it sends something"  # how a client ends


class Handing(Streams):
    """Seats for direct connections, and nobody in them."""

    def __init__(self, room, count, each=0):
        super().__init__(room, count, each=each, is_taken=False)
        self.door = socket.socket(socket.AF_UNIX)
        self.door.bind(f"{self.place}.direct")
        self.door.listen()
        Directs(self.loop, self.door, self.seats, self.account)

    def close(self):
        super().close()
        self.door.close()

    def hand(self):
        """A connection."""
        made = Handed(self)
        self.settle()
        made.receive()
        return made

    def read(self, at=0):
        """What the server has of a seat, and whether that is all."""
        data = b""
        with contextlib.suppress(BlockingIOError):
            while more := os.read(self.files[at][0], 1 << 20):
                data += more
                self.settle()
            return data, True
        return data, False

    def write(self, at, data):
        """How much of its lines the server gets rid of without waiting."""
        count = 0
        with contextlib.suppress(BlockingIOError):
            while count < len(data):
                count += os.write(self.files[at][1], data[count:])
                self.settle()
        return count

    def again(self, at=0):
        """The server ends a session, and begins the next one."""
        self.end(at)
        self.begin(at)


class Handed:
    """A client's side of a direct connection."""

    def __init__(self, handing):
        self.handing, self.socket, self.ends = handing, socket.socket(socket.AF_UNIX), []
        self.socket.connect(f"{handing.place}.direct")
        self.socket.setblocking(False)

    def receive(self):
        self.word, self.ends, _, _ = socket.recv_fds(self.socket, 100, 8)

    def fill(self):
        """Writes rows until no more are taken, and not a byte more. What was written."""
        os.set_blocking(self.ends[0], False)
        data = b""
        for part in (ROWS, b"9"):
            with contextlib.suppress(BlockingIOError):
                while True:
                    data += part[:os.write(self.ends[0], part)]
        os.set_blocking(self.ends[0], True)
        return data

    def leave(self, way):
        """Ends in a way."""
        if way == "it sends something":
            self.socket.send(b"x")
        if "rows" in way:
            self.socket.shutdown(socket.SHUT_WR)
            self.handing.settle()
        if "hangs up" in way:
            self.socket.close()
        self.handing.settle()

    def heard(self):
        """What comes on the connection itself, None where it goes on."""
        with contextlib.suppress(BlockingIOError):
            return self.socket.recv(100)
        return None

    def close(self):
        self.socket.close()
        for file in self.ends:
            os.close(file)
        self.handing.settle()


def passed(program, checks, _, room):
    """A connection gets one message: an end to write and one to read, which block, and whose flags are the client's own."""
    handing = Handing(room, 2)
    made = handing.hand()
    checks.same("the message", (made.word, len(made.ends), made.heard()), (WORD, 2, None))
    checks.same("its files", [fcntl.fcntl(file, fcntl.F_GETFL) & (os.O_ACCMODE | os.O_NONBLOCK) for file in made.ends],
                [os.O_WRONLY, os.O_RDONLY])
    os.write(made.ends[0], ROWS)
    checks.same("what it writes is the server's", handing.read(), (ROWS, False))
    handing.write(0, lines(0, 3))
    checks.same("what the server writes is the client's", got(made.ends[1]), lines(0, 3))
    other = handing.hand()
    os.write(other.ends[0], ROWS)
    checks.same("another one has the other seat", (handing.read(0)[0], handing.read(1)[0]), (b"", ROWS))
    handing.write(1, lines(1, 3))
    checks.same("and its lines", got(other.ends[1]), lines(1, 3))
    for one in (made, other):
        one.close()


def quoted(program, checks, _, room):
    """A session ends behind its rows by one quotation mark, in whichever way its connection ends."""
    handing = Handing(room, 1)
    for way in WAYS:
        made = handing.hand()
        os.write(made.ends[0], ROWS + b"half a row")
        made.leave(way)
        checks.same(f"the rows, {way}", handing.read(), (ROWS + b"half a row" + QUOTE, False))
        is_over = way != "it ends its rows"
        handing.write(0, lines(0, 3))
        checks.same(f"the lines, {way}", b"" if is_over else got(made.ends[1]), b"" if is_over else lines(0, 3))
        handing.again()
        if "hangs up" not in way:
            checks.same(f"the connection, {way}", made.heard(), b"refused\n" if way == WAYS[3] else b"")
        made.close()
        checks.same(f"the seat, {way}", (handing.free(), handing.read()), ([0], (b"", False)))
    made = handing.hand()
    handing.again()
    checks.same("the server ends a session: the connection", made.heard(), b"")
    made.close()
    checks.same("and the next session", (handing.free(), handing.read()), ([0], (b"", False)))


def crowded(program, checks, _, room):
    """Where the server takes no more rows, they wait for it as long as their client is there. Once it isn't, some are dropped, so that the
    session ends."""
    for way in WAYS:
        handing = Handing(room, 1)
        made = handing.hand()
        rows = made.fill()
        made.leave(way)
        found = os.read(handing.files[0][0], 1 << 20)
        if way == "it ends its rows":
            handing.write(0, lines(0, 3))
            handing.settle()
            checks.same(f"rows that the server hasn't read, {way}", (found == rows, handing.read()), (True, (QUOTE, False)))
            checks.same("its lines are its own", got(made.ends[1]), lines(0, 3))
        else:
            checks.true(f"rows that the server hasn't read, {way}", found.endswith(QUOTE) and len(found) < len(rows),
                        (len(found), len(rows), found[-99:]))
            checks.same(f"there is no more of them, {way}", handing.read(), (b"", False))
        os.write(made.ends[0], ROWS)
        handing.again()
        checks.same(f"rows behind the end, {way}", (handing.free(), handing.read()), ([0], (b"", False)))
        made.close()


def unheard(program, checks, _, room):
    """Lines wait for their client as long as it is there. Once it isn't, nothing waits for them, and nobody has them."""
    for way in WAYS:
        handing = Handing(room, 1)
        made = handing.hand()
        os.write(made.ends[0], ROWS)
        before = handing.write(0, b"." * MUCH)
        checks.true(f"a client that doesn't read, {way}", 0 < before < MUCH, before)
        made.leave(way)
        after = handing.write(0, b"." * MUCH)
        checks.same(f"lines that nobody reads, {way}", after, 0 if way == "it ends its rows" else MUCH)
        handing.again()
        following = handing.hand()
        checks.same(f"the next one, {way}", (following.word, got(following.ends[1])), (WORD, None))
        handing.write(0, lines(1, 1))
        checks.same(f"its lines, {way}", got(following.ends[1]), lines(1, 1))
        while kept := got(made.ends[1]):
            checks.same(f"the ends that were kept, {way}", set(kept), {ord(".")})
        checks.true(f"nobody reads rows of the ends that were kept, {way}", is_broken(made.ends[0]))
        checks.same(f"nor has the next one rows, {way}", handing.read(), (b"", False))
        for one in (made, following):
            one.close()


def got(file):
    """What can be read now, None where that is nothing."""
    os.set_blocking(file, False)
    try:
        return os.read(file, 1 << 16)
    except BlockingIOError:
        return None
    finally:
        os.set_blocking(file, True)


def is_broken(file):
    try:
        os.write(file, ROWS)
    except BrokenPipeError:
        return True
    return False


def reseated(program, checks, _, room):
    """A seat is another's once the server has begun its next session, and not before that. Seats are taken in the order in which they
    were left, each by one."""
    handing = Handing(room, 3)
    together = [handing.hand() for _ in range(3)]
    for way, order in (("it hangs up", (1, 0, 2)), ("it ends its rows and hangs up", (2, 0, 1)), ("it sends something", (0, 2, 1))):
        for at in order:
            together[at].leave(way)
        checks.same(f"before the server has opened the files again, {way}", ([handing.hand().word for _ in range(3)], handing.free()),
                    ([b"busy\n"] * 3, []))
        for count, at in enumerate(order):
            handing.again(at)
            checks.same(f"seats that are free again, {way}", handing.free(), [*order[:count + 1]])
        for at in order:
            together[at].close()
            together[at] = handing.hand()
            os.write(together[at].ends[0], asks(at, 1))
            checks.same(f"rows of the next one, {way}", [handing.read(each)[0] for each in range(3)],
                        [asks(at, 1) if each == at else b"" for each in range(3)])
        checks.same(f"one too many, {way}", handing.hand().word, b"busy\n")
    for one in together:
        one.close()


def bounded(program, checks, _, room):
    """One user's bound holds for both places together, and what has ended isn't counted."""
    handing = Handing(room, 4, each=2)
    for turn in range(3):
        made = handing.hand()
        relayed = socket.socket(socket.AF_UNIX)
        relayed.connect(handing.place)
        handing.settle()
        words = [made.word, *(handing.hand().word for _ in range(2))]
        checks.same(f"direct ones beside a relayed one, turn {turn}", words, [WORD, b"busy\n", b"busy\n"])
        made.close()
        handing.again(handing.seats.all.index(busy_seat(handing, direct=True)))
        other = handing.hand()
        checks.same(f"once one has ended, turn {turn}", other.word, WORD)
        other.close()
        handing.again(handing.seats.all.index(busy_seat(handing, direct=True)))
        relayed.close()
        handing.settle()
        handing.at_server()
        checks.same(f"all have ended, turn {turn}", len(handing.free()), 4)


def busy_seat(handing, direct):
    """The seat that a connection has, or had: a direct one, or a relayed one."""
    relayed = [relay.seat for relay in handing.relays.all]
    return next(seat for seat in handing.seats.all if seat not in handing.seats.free and (seat not in relayed) == direct)


def descriptors(program, checks, _, room):
    """Descriptors at the end as at the begin, in whichever way connections end."""
    handing = Handing(room, 2)
    gc.collect()  # or connections of earlier tests would be closed meanwhile
    before = len(os.listdir("/proc/self/fd"))
    for way in WAYS * 3:
        made = handing.hand()
        made.fill()
        made.leave(way)
        handing.again(busy_at(handing))
        made.close()
        handing.pass_time()
        checks.same(f"descriptors, {way}", len(os.listdir("/proc/self/fd")), before)


def busy_at(handing):
    return handing.seats.all.index(busy_seat(handing, True))


HANDED = passed, quoted, crowded, unheard, reseated, bounded, descriptors
