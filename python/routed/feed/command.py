"""The command `routed-tools feed`: which router it reads from is said by its first word."""
from __future__ import annotations

import sys

from .bgpls import bgpls
from .ospf import ospf


def main(words: list[str] | None = None) -> int:
    """Takes the words of a command line, and answers the status."""
    words = sys.argv[1:] if words is None else words
    return bgpls.main(words[1:]) if words[:1] == ["bgpls"] else ospf.main(words)
