"""Names in rows and lines, for `routed-tools connect --names`: names become addresses in rows, and lines get names behind them."""
from __future__ import annotations

from ..model.names import Names
from ..model.rows import Reply, is_address
from ..net.stream import LONGEST

# Of a row's fields behind its word, the last one that is an address.
ADDRESSES = {"put": 4, "drop": 2, "node": 1, "ask": 3, "except": 3, "place": 3, "held": 3, "offer": 3, "left": 2}
FIRST = {"ask": 2, "except": 2, "place": 2, "held": 2, "offer": 2}  # and the first one, where it isn't field 1
MOST_OWNERS = 16_384  # interfaces whose routers are known


class Naming:
    """One direction of a connection, line by line. What is no whole line waits for its rest; one of more than 64 KiB goes on as it is."""

    def __init__(self, names: Names, owners: dict[str, str]) -> None:
        self.names, self.owners, self.unread = names, owners, b""  # owners: the router of an interface, by the put rows that went by

    def take(self, data: bytes, is_row: bool) -> bytes:
        """The whole lines of what has come, with names. No data is the end: then what waits comes, too."""
        whole = self.unread + data
        end = whole.rfind(b"\n") + 1 if data and len(whole) <= 2 * LONGEST else len(whole)
        whole, self.unread = whole[:end], whole[end:]
        change = self.row if is_row else self.line
        return b"".join(change(line.decode(errors="surrogateescape")).encode(errors="surrogateescape")
                        for line in whole.splitlines(keepends=True))

    def row(self, line: str) -> str:
        """A row, with addresses in place of names."""
        text = line.rstrip("\r\n")
        fields = text.split(",")
        for at in range(FIRST.get(fields[0], 1), min(ADDRESSES.get(fields[0], 0) + 1, len(fields))):
            fields[at] = self.names.address_of(fields[at]) or fields[at]
        self.learn(fields)
        return ",".join(fields) + line[len(text):]

    def learn(self, fields: list[str]) -> None:
        if fields[0] == "put" and len(fields) > 4 and len(self.owners) < MOST_OWNERS:
            self.owners[fields[2]], self.owners[fields[4]] = fields[1], fields[3]

    def line(self, line: str) -> str:
        """A line, and behind it the names of its addresses: of a reply the routers that the route comes to."""
        text = line.rstrip("\r\n")
        self.learn(text.split(","))
        reply = Reply.parse(text)
        found = list(reply.fars) if reply else [field for field in text.replace(" ", ",").split(",") if is_address(field)]
        named = [self.name_of(address) for address in found]
        if not reply:
            named = [name for name, address in zip(named, found) if address in self.names.names]
        return text + (f"  # {', '.join(named)}" if any(name not in found for name in named) else "") + line[len(text):]

    def name_of(self, address: str) -> str:
        """The name of an address, else that of the router whose interface has it, else the address."""
        return self.names.names.get(address) or self.names.names.get(self.owners.get(address, "")) or address
