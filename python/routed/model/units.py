"""Bandwidths as people write them: bits per second with a unit. Rows have whole bytes per second."""
from __future__ import annotations

import re
from fractions import Fraction

from .rows import Refused

BITS = {"G": 10 ** 9, "M": 10 ** 6, "k": 10 ** 3}  # the greatest first
RATE = re.compile(r"([0-9]{1,20})(?:\.([0-9]{1,20}))?([GMk]?)(B?)")
WANTED = "is no bandwidth: 2.5G, 400M and 64k are bits per second, and 125000000B and 125MB are bytes per second"


def rate_of(text: str) -> int:
    """The bytes per second of a bandwidth, rounded up to a whole number."""
    found = RATE.fullmatch(text)
    if not found or not found[3] and not found[4] and text != "0":
        raise Refused(f"{text!r} {WANTED}")
    whole, part, unit, is_bytes = found.groups()
    number = Fraction(int(whole + (part or "")), 10 ** len(part or "")) * BITS.get(unit, 1)
    bytes_per_second = -(-number // (1 if is_bytes else 8))
    if bytes_per_second >= 1 << 64:
        raise Refused(f"{text!r} is more than 2^64 - 1 bytes per second")
    return int(bytes_per_second)


def rate_text(bytes_per_second: int) -> str:
    """A bandwidth in bits per second, by the greatest unit that has it in three decimals; `rate_of` reads the same number back."""
    bits = 8 * bytes_per_second
    unit = next((unit for unit, size in BITS.items() if bits >= size and bits * 1000 % size == 0), "k")
    whole, part = divmod(bits * 1000 // BITS[unit], 1000)
    return f"{whole}{f'.{part:03}'.rstrip('0').rstrip('.')}{unit}" if bits else "0"
