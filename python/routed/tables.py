"""Tables of text, whose columns are as wide as their cells."""
from __future__ import annotations

from collections.abc import Iterator, Sequence


def table(heads: Sequence[str], rows: Sequence[Sequence[object]]) -> Iterator[str]:
    """The lines of a table. A column is set to the right where its head begins with a space, which isn't shown."""
    cells = [[head.strip() for head in heads], *([str(cell) for cell in row] for row in rows)]
    wide = [max(map(len, column)) for column in zip(*cells)]
    for row in cells:
        yield "  ".join(cell.rjust(size) if head[:1] == " " else cell.ljust(size) for head, cell, size in zip(heads, row, wide)).rstrip()
