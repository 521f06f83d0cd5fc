"""One LSP of a PCC, and the updates that it was sent."""
from __future__ import annotations

import typing

from .requests import Request
from .routes import Route
from .wire import Hop, Refused, hops_of

if typing.TYPE_CHECKING:
    from .reports import Report

# flags of an LSP object: D, S, R, A, O (three bits), C
DELEGATED, SYNC, REMOVED, ADMIN, OPERATIONAL, CREATED = 1, 2, 4, 8, 0x70, 0x80
DOWN = 0  # the O flags of an LSP that isn't signaled
TAKEN = 23, 1  # the error of a delegation that belongs to another PCC
WAITS = 10, 20, 40, 60  # seconds from one update of an LSP to the next equal one
ANSWER = 10  # seconds that an update waits for its answer
MOST_READ = 32768  # bytes of an ERO whose links are looked for; a longer one is compared by its bytes
MOST_AT_ONCE = 4  # updates of an LSP at one version; each further one waits for ANSWER seconds


class Update:
    """A PCUpd that was sent."""

    __slots__ = "srp", "ero", "attributes", "route", "version", "at", "tries", "is_settled", "is_down"

    def __init__(self, srp: int, ero: bytes, attributes: bytes, route: Route, version: int, at: float, tries: int) -> None:
        self.srp, self.ero, self.attributes, self.route, self.version, self.at = srp, ero, attributes, route, version, at
        self.tries = tries  # equal ones before it
        self.is_settled = False  # its PCC has accepted or refused it
        self.is_down = False  # its PCC has answered by its ERO and DOWN, which may be on the way to UP

    def is_equal(self, ero: bytes, attributes: bytes) -> bool:
        return self.ero == ero and self.attributes == attributes

    def again_at(self) -> float:
        """When an equal one may be sent."""
        return self.at + WAITS[min(self.tries, len(WAITS) - 1)]


class Lsp:
    """One LSP as it was reported, the request that it is asked for by, and what was sent for it."""

    def __init__(self, number: int):
        self.number, self.name, self.flags, self.setup_type = number, "", 0, 0
        self.request: Request | None = None
        self.size = 0  # bytes of its last report
        self.ero = b""  # as it was reported last
        self.error: int | None = None  # its LSP-ERROR-CODE
        self.route: Route | None = None  # by the links of the network; None if that isn't known
        self.last: Update | None = None
        self.waits = False  # for the answer to the last update
        self.at_once = 0  # updates at the version of the last one
        self.refused: Update | None = None
        self.was_lost = False  # the route that its PCC kept couldn't be used at the refusal already, or since
        self.moved_at: float | None = None
        self.wake_at: float | None = None  # when it is looked at again
        self.silent_since: float | None = None  # when the first update was sent that its PCC hasn't answered
        self.tried = 0  # the version of the last try to bring it up
        # What is said once, and counted by figures:
        self.is_lost = False  # there is no route
        self.is_broken = False  # the route that its PCC keeps may not be used
        self.is_silent = False  # its PCC hasn't answered the last update
        self.is_down = False  # though its route may be used
        self.is_unknown = False  # its route can't be read
        self.is_asked, self.is_returned = False, False
        self.fault: Refused | None = None  # why it is given back
        self.is_taken = False  # another PCC has delegated it, too, and it is that PCC's
        self.is_made, self.has_changed = False, False  # a line of --initiate has made it; that has changed since
        self.is_leaving, self.removal = False, 0  # it is to be removed, and the SRP of that
        self.id: int | None = None  # of the book, if it is counted there
        self.report: Report | None = None  # the last one, if it is counted
        self.uncounted = ""  # why the book lacks it
        self.is_counted = False  # the book had it when it was looked at last
        self.is_excluding = False  # the answer that moves it was to a row that excludes links
        self.swaps: list[float] = []  # when it was counted elsewhere without being moved, in the last seconds

    @property
    def hops(self) -> list[Hop | None]:
        """The hops of its ERO; one that can't be read where there are too many."""
        return hops_of(self.ero) if len(self.ero) <= MOST_READ else [None]

    @property
    def pending(self) -> Update | None:
        """The update that waits for its answer."""
        return self.last if self.waits else None

    def is_ours(self) -> bool:
        return bool(self.flags & DELEGATED) and self.request is not None and not self.is_leaving

    def asked(self) -> Request:
        """The request of an LSP that is ours."""
        assert self.request is not None
        return self.request

    def is_reported_down(self) -> bool:
        """Whether its PCC says that it is down, though it should be up."""
        return bool(self.flags & ADMIN) and self.flags & OPERATIONAL == DOWN

    def may_swap(self, now: float) -> bool:
        """Whether it may be counted elsewhere now, since its PCC has reported so: that makes versions, and a PCC may say so for ever."""
        self.swaps = [at for at in self.swaps if now - at < ANSWER]
        return len(self.swaps) < MOST_AT_ONCE

    def is_willing(self, now: float) -> bool:
        """Whether its PCC has taken the last update, or may be sent another one."""
        return self.last is None or self.last.is_settled and self.refused is None or now >= self.last.again_at()

    def faults(self) -> list[str]:
        """What is wrong with an LSP that is ours, as `routed_pcep_lsps_at_fault` counts it."""
        found = {"refused": self.refused is not None, "silent": self.is_silent, "down": self.is_down, "unknown": self.is_unknown,
                 "lost": self.is_broken}
        return [name for name, is_so in found.items() if is_so] if self.is_ours() else []

    def forget(self) -> None:
        """It isn't ours any more: nothing of what was sent counts."""
        self.last, self.refused, self.waits, self.wake_at, self.silent_since = None, None, False, None, None
        self.is_lost = self.is_broken = self.is_silent = self.is_down = self.is_unknown = False
