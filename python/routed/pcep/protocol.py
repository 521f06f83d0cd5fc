"""What the sessions of PCCs ask of the front that they share."""
import re
from argparse import Namespace
from collections.abc import Callable, Iterable, Sequence
from typing import Protocol

from ..follow.slices import Asking
from ..net.loop import Owner
from .network import Network
from .placements import Placements
from .requests import Request
from .sids import Sids
from .srlgs import Srlgs

Link = tuple[str, str, int]  # a link of a segment routing path: near address, far address, label
Fault = tuple[tuple[int, int] | None, str]  # why a route has no ERO: the error that says so, if any, and words
KIND = re.compile(r"row \d+ refused: kind")  # how a server refuses rows that it doesn't take


class SessionFront(Protocol):
    """The options, the server's answers and versions, the network, the wanted LSPs, figures and the log."""

    options: Namespace
    network: Network
    sids: Sids | None
    srlgs: Srlgs | None
    placements: Placements | None  # where LSPs by segment routing are counted, if they are
    version: int  # the newest that is known
    clock: Callable[[], float]

    @property
    def is_away(self) -> bool:
        """Whether there is no server that tells versions."""

    def say(self, level: str, text: str) -> None:
        """Writes a line of the log."""

    def count(self, what: str, value: str) -> None:
        """Adds one to the figure `routed_pcep_WHAT_total`, under this value of its label."""

    def tally(self, what: str) -> None:
        """Adds one to the figure `routed_pcep_WHAT_total`, which has no label."""

    def later(self, seconds: float, call: Callable[[], object], owner: Owner | None) -> None:
        """Calls this after so many seconds. An exception in it ends the owner."""

    def capabilities(self) -> bytes:
        """The TLVs of this side's Open."""

    def ask(self, row: str, call: Callable[[str | None], None], owner: Owner | None) -> None:
        """Asks the server, and gives its line to `call`; None where no line comes. An exception in it ends the owner."""

    def in_turn(self, asking: Asking) -> None:
        """Asks the server for these LSPs, a few at a time."""

    def segments(self, head: str, fars: Sequence[str], version: int) -> list[Link] | None:
        """The links of a route at a version, with their SIDs; None where a link has none."""

    def claims(self, peer: str, head: str, name: str) -> bool:
        """Whether a PCC may delegate the LSP of that head-end and name. Another PCC that has done so loses it to the head-end's."""

    def wanted(self, peer: str, name: str) -> Request | None:
        """What the file of --initiate wants for a PCC under a name."""

    def all_wanted(self, peer: str) -> Iterable[tuple[str, Request]]:
        """All that the file wants of a PCC: names and requests."""

    def is_unwanted(self, peer: str, name: str) -> bool:
        """Whether the line of a PCC of that name is gone since the front began."""
