"""Keys of TCP-MD5 (RFC 2385)."""
import socket
import struct

from ..net.endpoints import Stopped, tried

TCP_MD5 = 14  # the socket option


def set_key(listener: socket.socket, peer: str, key: bytes) -> None:
    """From now on a peer of this address has to use the key."""
    where = struct.pack("=HH4s120x", socket.AF_INET, 0, socket.inet_aton(peer))
    listener.setsockopt(socket.IPPROTO_TCP, TCP_MD5, where + struct.pack("=BBHi80s", 0, 0, len(key), 0, key))


def keys(path: str | None) -> list[tuple[str, bytes]]:
    """Addresses and keys of TCP-MD5: lines `ADDRESS KEY`."""
    if path is None:
        return []
    found = []
    with tried(f"{path}: read"):
        with open(path, "rb") as file:
            lines = file.read().splitlines()
    for number, line in enumerate(lines, 1):
        peer, _, key = line.partition(b" ")
        try:
            socket.inet_aton(peer.decode())
            good = 0 < len(key) <= 80
        except (OSError, UnicodeDecodeError):
            good = False
        if line.strip() and not good:
            raise Stopped(f"{path}: line {number} is no address with a key of 1 to 80 bytes")
        if line.strip():
            found.append((peer.decode(), key))
    return found
