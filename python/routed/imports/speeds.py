"""Units of speed as other programs' files spell them."""
from __future__ import annotations

import re

PREFIXES = {"": 1, "k": 1e3, "m": 1e6, "g": 1e9, "t": 1e12}
BINARY = {"ki": 2.0 ** 10, "mi": 2.0 ** 20, "gi": 2.0 ** 30, "ti": 2.0 ** 40}
SECOND = r"(?:ps|/s|/sec|/second| per second|persec|_per_sec|_per_second)?"
UNIT = re.compile(rf"([KMGTkmgt]i?|)(b|B|bits?|bytes?|BITS?|BYTES?|Bits?|Bytes?|){SECOND}|([KMGT]?)(BIT|BYTE)(?:PS|PERSEC|/S)")
ALIKE = re.compile(r"[KMGT]?BPS")  # bits in some files, and bytes in others
KNOWN = "known are bps, kbps, Mbps, Gbps, Tbps, the same with bit/s, MB/s and the like for bytes, and Mibit/s and the like"


def unit_of(text: str) -> float:
    """The bytes per second of one of a unit. A prefix alone is of bits. ValueError says why a unit isn't read."""
    unit = " ".join(text.split())
    if ALIKE.fullmatch(unit):
        raise ValueError(f"the unit {unit} is bits in some files and bytes in others: write {unit[:-3]}bit/s or {unit[:-3]}B/s")
    found = UNIT.fullmatch(unit)
    if not found:
        raise ValueError(f"the unit {unit} isn't known: {KNOWN}")
    prefix, kind = ((found[3] or "") if found[4] else found[1]).lower(), found[4] or found[2]
    size = BINARY[prefix] if prefix in BINARY else PREFIXES[prefix]
    return size if kind.lower().startswith("byte") or kind == "B" else size / 8
