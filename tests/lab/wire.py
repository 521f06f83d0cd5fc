"""PCEP as it is on the wire of a namespace: segments of TCP become messages, and a capture keeps the packets."""
import select
import socket
import struct
import sys
import time

PORT, ALL, IP, TCP = 4189, 3, 0x0800, 6  # PCEP's; of a packet socket: every packet, and those of IP; of IP: those of TCP
CAPTURE = struct.pack("=IHHiIII", 0xa1b2c3d4, 2, 4, 0, 0, 1 << 16, 101)  # its head: packets begin with their IP header
SYN, HALF, WHOLE = 2, 1 << 31, 1 << 32  # a flag of TCP; sequence numbers


class Stream:
    """One direction of a connection. `next` is the sequence number of the next byte that is awaited."""

    def __init__(self, next_):
        self.next, self.early, self.unread = next_, {}, b""

    def take(self, number, data):
        """The messages that are whole with this segment."""
        self.early[number] = max(self.early.get(number, b""), data, key=len)
        for at in sorted(self.early, key=lambda at: (at - self.next + HALF) % WHOLE):
            known = (self.next - at) % WHOLE
            if known < HALF:  # no byte before it is missing
                more = self.early.pop(at)[known:]
                self.next, self.unread = (self.next + len(more)) % WHOLE, self.unread + more
        found = []
        while len(self.unread) >= max(4, size := int.from_bytes(self.unread[2:4], "big")):
            found.append(self.unread[:max(4, size)])
            self.unread = self.unread[max(4, size):]
        return found


class Streams:
    def __init__(self):
        self.all = {}

    def take(self, packet):
        """The source of an IP packet, and the messages that are whole with it; None where it isn't of PCEP."""
        start = 4 * (packet[0] & 15)
        if packet[9] != TCP or PORT not in struct.unpack_from("!HH", packet, start):
            return None
        ends, number = (packet[12:20], packet[start:start + 4]), int.from_bytes(packet[start + 4:start + 8], "big")
        data = packet[start + 4 * (packet[start + 12] >> 4):int.from_bytes(packet[2:4], "big")]
        if packet[start + 13] & SYN:
            self.all[ends] = Stream((number + 1) % WHOLE)
        return socket.inet_ntoa(packet[12:16]), self.all[ends].take(number, data) if data and ends in self.all else []


def watch(place, path):
    """Prints a line for each version at listen's place and each message of this namespace: the time, whose it is, and what. A version's
    line comes before those of the messages that it brings about. The file at `path` is the capture."""
    packets, streams, unread = socket.socket(socket.AF_PACKET, socket.SOCK_DGRAM, socket.htons(ALL)), Streams(), b""
    with socket.socket(socket.AF_UNIX) as told, open(path, "wb", buffering=0) as capture:
        told.connect(place)
        capture.write(CAPTURE)
        while True:
            ready, lines = select.select([told, packets], [], [])[0], []
            now = time.monotonic()
            if told in ready:
                data = told.recv(1 << 16)
                if not data:
                    return 0
                *words, unread = (unread + data).split(b"\n")
                lines += [word.decode() for word in words]
            if packets in ready:
                packet, origin = packets.recvfrom(1 << 16)
                found = streams.take(packet) if origin[1] == IP else None
                if found:
                    capture.write(struct.pack("=IIII", *divmod(time.time_ns() // 1000, 1_000_000), len(packet), len(packet)) + packet)
                    lines += [f"{found[0]} {message.hex()}" for message in found[1]]
            sys.stdout.write("".join(f"{now} {line}\n" for line in lines))
            sys.stdout.flush()
