"""Feeds a network to `routed` as it is and as it changes, from the OSPF API of one of its routers (FRR's `ospfd -a`).

With a command, such as `routed solve`, or a place of routed-tools listen (--to), the rows go there: each line of standard
input that is an ask row is passed on to it too, and its lines come out on standard output. Without either, rows go to
standard output, and the lines that come back are read from standard input. A program that has a database already tells it
where it is behind routed-tools listen; else --journal names its journal. docs/run/FEED.md has what is taken from where.
"""
from __future__ import annotations

import argparse
import contextlib
import random
import socket
import struct

from ...net.stream import Stream
from ...program import number
from ..feed import Hearing, Lost, Session, host, options, run
from .lsas import Lsdb

HEADER = struct.Struct(">BBHI")  # version, kind, bytes of the body, number
VERSION = 1
REGISTER_EVENT, SYNC_LSDB = 3, 4
REPLY, LSA_UPDATE, LSA_DELETE = 10, 12, 13
# Router LSAs (type 1) and area-local opaque LSAs (type 10), of any origin, of all areas.
FILTER = struct.pack(">HBB", 1 << 0 | 1 << 9, 2, 0)
PATIENCE = 2.0  # seconds for a connection to come about


class Router(Session):
    """A session with the OSPF API of a router that sends its LSAs and each change of them."""

    def __init__(self, asked: argparse.Namespace, feed: Hearing) -> None:
        self.lsdb = Lsdb(bool(asked.sids), asked.sid_group, bool(asked.srlgs))
        super().__init__(asked, feed, self.lsdb.network, (HEADER.size, front), self.message)
        for made in sockets(asked.router, asked.port):
            self.watch(Stream(feed.loop, made))
        feed.up(self)

    def message(self, kind: int, body: bytes) -> bool | None:
        """Takes a message."""
        if kind == REPLY and body[:1] not in (b"\0", b""):
            raise Lost(f"the router refused a request, code {body[0] - 256}")
        return self.lsdb.take(body, kind == LSA_DELETE) if kind in (LSA_UPDATE, LSA_DELETE) else None


def front(data: bytes, at: int) -> tuple[int, int]:
    """The kind and the bytes of the message that begins there."""
    version, kind, length, _ = HEADER.unpack_from(data, at)
    if version != VERSION:
        raise Lost(f"a message of version {version}")
    return kind, HEADER.size + length


def pair_of_sockets(address: str) -> list[socket.socket]:
    """A socket and a listening one on the port above it: the router connects back to that."""
    for port in random.sample(range(50000, 60000, 2), 100):  # those of a connection that ended can't be had for a minute
        with contextlib.suppress(OSError), contextlib.ExitStack() as made:
            pair = [made.enter_context(socket.socket()) for _ in range(2)]
            for at, each in enumerate(pair, port):
                each.setsockopt(socket.SOL_SOCKET, socket.SO_REUSEADDR, 1)
                each.settimeout(PATIENCE)
                each.bind((address, at))
            pair[1].listen(1)
            made.pop_all()
            return pair
    raise Lost(f"no two ports next to each other are free at {address}")


def sockets(router: str, port: int) -> list[socket.socket]:
    """Both sockets of a connection that has asked for the LSAs and for each change of them."""
    with socket.socket(socket.AF_INET, socket.SOCK_DGRAM) as probe:  # it sends nothing
        probe.connect((router, port))
        address = probe.getsockname()[0]  # of this machine, as the router sees it
    with contextlib.ExitStack() as made:
        asking, listening = [made.enter_context(each) for each in pair_of_sockets(address)]
        asking.connect((router, port))
        try:
            hearing, peer = listening.accept()
        except OSError as fault:
            raise Lost(f"it doesn't connect back to port {listening.getsockname()[1]}: {fault.strerror or fault}") from None
        made.enter_context(hearing)
        if peer[0] != asking.getpeername()[0]:
            raise Lost(f"{peer[0]} connected back, and not the router")
        for at, kind in enumerate((REGISTER_EVENT, SYNC_LSDB), 1):
            asking.sendall(HEADER.pack(VERSION, kind, len(FILTER), at) + FILTER)
        made.pop_all()
        listening.close()
    return [asking, hearing]


def main(words: list[str] | None = None) -> int:
    """Takes the words of a command line, and answers the status."""
    asked = argparse.ArgumentParser(prog="routed-tools feed", description=__doc__.split("\n\n")[0],
                                    epilog="routed-tools feed bgpls --help has the options of the feed by BGP-LS.")
    asked.add_argument("--router", type=host, default="127.0.0.1", metavar="ADDRESS", help="where the router's OSPF API is")
    asked.add_argument("--port", type=number("number", 1, 65535), default=2607)
    options(asked, where="{0.router} port {0.port}")
    return run("ospf", asked, words, Router)
