"""The adjacency SIDs that the feed writes."""
from __future__ import annotations

import re
from collections.abc import Iterable

from ..model.rows import Key
from .link_file import LinkFile
from .network import Network

SID = re.compile(r"sid,([0-9]{1,7}),([0-9.]+),([0-9.]+),([0-9]{0,7})")


class Sids(LinkFile["int | None"]):
    """Lines `sid,VERSION,ROUTER,LOCAL,LABEL`, without label where a SID is gone."""

    def __init__(self, path: str) -> None:
        super().__init__(path, SID, lambda label: int(label) if label else None)

    def find(self, key: Key, version: int) -> int | None:
        """The label of a link at a version. None where there is none."""
        return self.at(key, version) if self.is_current else None

    def has_had(self, key: Key, label: int) -> bool:
        """Whether a line gives a link this label."""
        return self.is_current and any(one == label for _, one in self.links.get(key, ()))

    def segments(self, network: Network, head: str, fars: Iterable[str], version: int) -> list[tuple[str, str, int]] | None:
        """The near address, the far address and the label of each link of a route; None if a link has no SID."""
        at, found = head, []
        for far in fars:
            pairs = [(link, label) for link in network.known(at, far) if (label := self.find(link.key, version)) is not None]
            if not pairs:
                return None
            link, label = pairs[0]
            found.append((link.local, far, label))
            at = link.neighbor
        return found
