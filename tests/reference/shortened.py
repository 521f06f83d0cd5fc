"""Makes a stream that differs short, before it is printed."""
import re
import time

MOST_SECONDS = 60  # for one stream
END = re.compile(r"end,[0-9]+,[0-9]+\n?")


def shortened(rows, differs, seconds=MOST_SECONDS, now=time.monotonic):
    """The rows without those that a difference doesn't need. `differs` says of rows whether they differ, and does so of these. Long
    pieces are left out first, then shorter ones, down to single rows, until the time is up. Numbers and counts of batches may be mended."""
    size, end = 1 << max(0, len(rows).bit_length() - 2), now() + seconds  # (a power of 2, since rows come in pairs)
    while size and rows:
        at, before = 0, len(rows)
        while at < len(rows):
            if now() >= end:
                return rows
            rest = rows[:at] + rows[at + size:]
            others = [mended(rest)] if mended(rest) != rest else []
            found = next((some for some in [rest, *others] if differs(some)), None)
            if found is None:
                at += size
            else:
                rows = found
        size = size // 2 if size > 1 or len(rows) == before else 1  # what is gone may make others needless
    return rows


def mended(rows):
    """The rows with end rows that number the batches from 1, and count the changes before them."""
    made, number, count = [], 0, 0
    for row in rows:
        if row.startswith(("put,", "drop,", "node,")):
            count += 1
        elif END.fullmatch(row):
            number += 1
            row, count = f"end,{number},{count}\n", 0
        made.append(row)
    return made
