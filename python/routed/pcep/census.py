"""How many LSPs there are, and what is wrong with them: counted for the figures, the LSPs of one session at a time."""
from __future__ import annotations

from collections.abc import Mapping
from typing import TYPE_CHECKING

if TYPE_CHECKING:
    from .pcc import Pcc

FAULTS = "refused", "silent", "down", "unknown", "lost"  # of LSPs
MOST_PCCS = 256  # that are counted by themselves


class Census:
    """The counts of the last time, and those that are being made."""

    def __init__(self, pccs: Mapping[str, Pcc]) -> None:
        self.pccs = pccs
        self.left: list[str] | None = None  # the PCCs whose LSPs aren't counted yet
        self.begin()
        self.ours, self.lost, self.uncounted, self.faults, self.by_pcc = self.counts

    def begin(self) -> None:
        self.counts: tuple[int, int, int, dict[str, int], dict[str, int]] = (0, 0, 0, dict.fromkeys(FAULTS, 0), {})

    def go_on(self) -> bool:
        """Counts the LSPs of one more PCC. Whether all are counted now."""
        if self.left is None:
            self.left = [*self.pccs]
            self.begin()
        pcc = self.pccs.get(self.left.pop()) if self.left else None
        if pcc:
            ours, lost, uncounted, faults, by_pcc = self.counts
            before = ours
            for lsp in pcc.session.lsps.all.values():
                ours += lsp.is_ours()
                lost += lsp.is_lost
                uncounted += bool(lsp.uncounted)
                for fault in lsp.faults():
                    faults[fault] += 1
            name = pcc.peer if len(by_pcc) < MOST_PCCS else "other"
            by_pcc[name] = by_pcc.get(name, 0) + ours - before
            self.counts = ours, lost, uncounted, faults, by_pcc
        if self.left:
            return False
        self.left = None
        self.ours, self.lost, self.uncounted, self.faults, self.by_pcc = self.counts
        return True
