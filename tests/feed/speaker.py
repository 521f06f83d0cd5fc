"""A BGP speaker that is played: it originates link state (RFC 9552), and its session is as right or as wrong as a test wants."""
import select
import socket
import struct

from feed.played import A, A_B, B, B_A, B_C, C, C_B, PATIENCE, raw

OPEN, UPDATE, NOTIFICATION, KEEPALIVE = 1, 2, 3, 4
FAMILY = struct.pack(">HB", 16388, 71)
ISIS_1, ISIS_2, OSPF_2 = 1, 2, 3
NUMBER = 65000  # the AS
ORIGIN, PATH, PREFERENCE = b"\x40\1\1\0", b"\x40\2\0", b"\x40\5\4" + struct.pack(">I", 100)
FRONT = ORIGIN + PATH + PREFERENCE
MOST_MET, OVERLOADED = 65535, 0x80


def tlv(kind, data):
    return struct.pack(">HH", kind, len(data)) + data


def message(kind, body=b""):
    return b"\xff" * 16 + struct.pack(">HB", 19 + len(body), kind) + body


def opening(number=NUMBER, hold=90, name="9.9.9.9", version=4, families=((16388, 71),), more=b"", has_long=True):
    """An Open; of an AS that doesn't fit into two bytes with 23456 in their place."""
    parts = b"".join(bytes([1, 4]) + struct.pack(">HBB", family, 0, sub) for family, sub in families)
    parts += bytes([65, 4]) + struct.pack(">I", number) if has_long else b""
    short = number if number < 1 << 16 else 23456
    parts = bytes([2, len(parts)]) + parts + more
    return message(OPEN, struct.pack(">BHH4sB", version, short, hold, raw(name), len(parts)) + parts)


def attribute(kind, data, flags=0x80):
    return struct.pack(">BBH", flags | 0x10, kind, len(data)) + data


def system(router):
    """The system ID by which IS-IS names the router."""
    return b"\0\0" + raw(router)


def node(router, protocol=OSPF_2, area="0.0.0.0", igp=None):
    """Descriptors of a node."""
    igp = igp or (raw(router) if protocol in (3, 6) else system(router))
    return tlv(512, struct.pack(">I", NUMBER)) + tlv(513, bytes(4)) + (tlv(514, raw(area)) if protocol in (3, 6) else b"") + tlv(515, igp)


def nlri(kind, body, protocol=OSPF_2, instance=0):
    return tlv(kind, struct.pack(">BQ", protocol, instance) + body)


def node_nlri(router, protocol=OSPF_2, instance=0, **more):
    return nlri(1, tlv(256, node(router, protocol, **more)), protocol, instance)


def link_nlri(router, local, neighbor, remote, protocol=OSPF_2, instance=0, near=None, far=None, more=b""):
    parts = tlv(256, near or node(router, protocol)) + tlv(257, far or node(neighbor, protocol))
    parts += (tlv(259, raw(local)) if local else b"") + (tlv(260, raw(remote)) if remote else b"")
    return nlri(2, parts + more, protocol, instance)


def told(metric=7, group=None, free=1000.0, most=2000.0, igp=300, own=None, other=None, srlgs=(), more=b""):
    """The TLVs of attribute 29; what is None is left out."""
    free = [free] * 8 if isinstance(free, float) else free
    igp = igp if isinstance(igp, (bytes, type(None))) else struct.pack(">H", igp)
    parts = [(1028, own and raw(own)), (1030, other and raw(other)), (1088, None if group is None else struct.pack(">I", group)),
             (1089, None if most is None else struct.pack(">f", most)), (1090, None if most is None else struct.pack(">f", most)),
             (1091, None if free is None else struct.pack(">8f", *free)), (1092, None if metric is None else struct.pack(">I", metric)),
             (1095, igp), (1096, b"".join(struct.pack(">I", each) for each in srlgs) or None)]
    return b"".join(tlv(kind, data) for kind, data in parts if data is not None) + more


def sid(label, flags=0x60, size=3):
    return tlv(1099, bytes([flags, 0, 0, 0]) + label.to_bytes(size, "big"))


def update(attributes):
    return message(UPDATE, struct.pack(">HH", 0, len(attributes)) + attributes)


def reach(*nlris, hop="9.9.9.9", reserved=b"\0"):
    return attribute(14, FAMILY + b"\4" + raw(hop) + reserved + b"".join(nlris))


def announce(nlris, tlvs, front=FRONT):
    """An Update of NLRIs, which share attribute 29."""
    return update(front + reach(*([nlris] if isinstance(nlris, bytes) else nlris)) + attribute(29, tlvs))


def withdraw(*nlris):
    return update(attribute(15, FAMILY + b"".join(nlris)))


END = withdraw()  # the End-of-RIB


def nlris_of(messages):
    """The NLRIs of Updates that `announce` made, as bytes."""
    found = b""
    while messages:
        at = messages.index(FAMILY)  # behind it are the next hop with its length, and a byte
        found += messages[at + 9:at + struct.unpack_from(">H", messages, at - 2)[0]]
        messages = messages[struct.unpack_from(">H", messages, 16)[0]:]
    return found


class Speaker:
    """The peer of a feed, which connects to it; its sessions are right ones unless it is told else."""

    name, is_reflected = "bgpls", False

    def __init__(self, port=0):
        self.listening = socket.create_server(("127.0.0.1", port))
        self.listening.settimeout(PATIENCE)
        self.port = self.listening.getsockname()[1]
        self.where = f"127.0.0.1 port {self.port}"
        self.sent = 0  # bytes; the end of a connection counts as one
        self.to, self.old = None, []

    def words(self):
        return ["bgpls", "--peer", f"127.0.0.1:{self.port}", "--as", str(NUMBER), "--id", "9.9.9.8", *self.more]

    more = ["--quiet", "86400"]  # held links are held as long as OSPF's

    def accept(self, *messages):
        """Takes a connection, and makes a session of it by the right messages or by these."""
        self.to, _ = self.listening.accept()
        self.to.settimeout(PATIENCE)
        self.opened = self.take()
        for each in messages or (opening(), message(KEEPALIVE)):
            self.send(each)
        if not messages:
            assert self.take() == (KEEPALIVE, b"")

    def is_waiting(self):
        """Whether somebody connects."""
        return bool(select.select([self.listening], [], [], 0)[0])

    def take(self):
        """The kind and the body of the feed's next message; empty where it has ended the connection."""
        head = self.read(19)
        return (head[18], self.read(struct.unpack_from(">H", head, 16)[0] - 19)) if head else ()

    def end_of(self):
        """The last bytes before the feed ends the connection, behind its Notification."""
        while self.take()[0] != NOTIFICATION:
            pass
        return self.read(1)

    def read(self, count):
        data = b""
        while len(data) < count and (more := self.to.recv(count - len(data))):
            data += more
        return data

    def send(self, data):
        self.to.sendall(data)
        self.sent += len(data)

    def hang_up(self):
        self.to.shutdown(socket.SHUT_WR)  # closed it could send a reset, for what the feed still writes
        self.old.append(self.to)
        self.sent += 1

    # ---- what scenarios of both protocols say

    @staticmethod
    def put(router, local, neighbor, remote, **more):
        return announce(link_nlri(router, local, neighbor, remote),
                        told(**{name: more[name] for name in more if name not in ("number", "sequence")}))

    @staticmethod
    def gone(router, local, neighbor, remote, **more):
        return withdraw(link_nlri(router, local, neighbor, remote))

    @staticmethod
    def links(*pairs):
        """Circuits that are up, each of a router, its local address, the neighbor and the remote address."""
        return b"".join(Speaker.put(*one) + Speaker.put(one[2], one[3], one[0], one[1]) for one in pairs)

    @staticmethod
    def routers(*ways):
        return b""

    @staticmethod
    def stub(router, *links):
        return announce(node_nlri(router), tlv(1024, bytes([OVERLOADED])))


PAIR = Speaker.links((A, A_B, B, B_A))
CHAIN = PAIR + Speaker.links((B, B_C, C, C_B))
Speaker.pair, Speaker.chain, Speaker.broken = PAIR, CHAIN, PAIR
Speaker.without_a = withdraw(link_nlri(A, A_B, B, B_A), link_nlri(B, B_A, A, A_B))
