"""What the protocols of routers have in common: messages behind each other, and TLVs, which are a kind, a length and a value."""
from __future__ import annotations

import struct
from collections.abc import Callable, Iterator


def tlvs(data: bytes, form: str = ">HH", align: int = 1) -> Iterator[tuple[int, bytes]]:
    """Kinds and values. Kind and length have the form of `struct`, and a value is padded to so many bytes, at the end of the data or not.
    struct.error says that a TLV is cut."""
    at, front = 0, struct.calcsize(form)
    while at < len(data):
        kind, size = struct.unpack_from(form, data, at)
        value = data[at + front:at + front + size]
        if len(value) < size:
            raise struct.error("a value that is cut")
        yield kind, value
        at += front + (size + align - 1) // align * align


def messages(data: bytes, header: int, front: Callable[[bytes, int], tuple[int, int]]) -> Iterator[tuple[int, bytes, int]]:
    """Kinds, bodies and ends of the whole messages at the front. Each begins with a header of so many bytes, and `front` reads there its
    kind and the bytes of all of it."""
    at = 0
    while len(data) - at >= header:
        kind, size = front(data, at)
        if len(data) - at < size:
            return
        yield kind, data[at + header:at + size], at + size
        at += size
