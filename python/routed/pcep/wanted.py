"""The LSPs that a file wants: lines `NAME,FROM,TO,SETUP,BANDWIDTH,EXCLUDE_ANY,INCLUDE_ANY,INCLUDE_ALL`."""
import re
import struct
from collections.abc import Callable

from ..model.rows import is_address, is_mask, is_rate
from ..net.endpoints import Stopped, tried
from . import wire
from .requests import Request

TESTS: list[Callable[[str], object]] = [is_address, is_address, re.compile("[0-7]").fullmatch, is_rate, is_mask, is_mask, is_mask]


def wanted(path: str | None, mark: str | None = None) -> dict[tuple[str, str], Request]:
    """Requests by PCC and name. Each name begins with the mark."""
    found: dict[tuple[str, str], Request] = {}
    if path is None:
        return found
    with tried(f"{path}: read"):
        with open(path, encoding="utf-8") as file:
            lines = file.read().splitlines()
    for number, line in enumerate(lines, 1):
        if not line.strip() or line.startswith("#"):
            continue
        name, *rest = line.split(",")
        why = refusal(rest)
        if why or not re.fullmatch(r"[!-~]{1,255}", name):
            raise Stopped(f"{path}: line {number}: {why or 'its name is no 1 to 255 visible characters'}")
        if mark and not name.startswith(mark):
            raise Stopped(f"{path}: line {number}: {name} doesn't begin with {mark}, as --mark says")
        if (rest[0], name) in found:
            raise Stopped(f"{path}: line {number}: {name} is there already")
        found[rest[0], name] = request_of(rest)
    return found


def by_pcc(found: dict[tuple[str, str], Request]) -> dict[str, dict[str, Request]]:
    """The same requests by name, for each PCC."""
    of: dict[str, dict[str, Request]] = {}
    for (head, name), request in found.items():
        of.setdefault(head, {})[name] = request
    return of


def refusal(fields: list[str]) -> str | None:
    """Why the fields behind a name are no LSP, None where they are one."""
    if len(fields) != len(TESTS):
        return "it has no eight fields"
    for at, (field, test) in enumerate(zip(fields, TESTS), 2):
        if not test(field):
            return f"field {at} can't be read"
    return "it ends where it begins" if fields[0] == fields[1] else None


def request_of(fields: list[str]) -> Request:
    request = Request()
    request.ends, request.setup, request.bandwidth = (fields[0], fields[1]), int(fields[2]), int(fields[3])
    request.hold = request.setup
    request.masks = int(fields[4], 16), int(fields[5], 16), int(fields[6], 16)
    request.attributes = wire.pack(wire.O_LSPA, struct.pack("!IIIBBBx", *request.masks, request.setup, request.setup, 0))
    if request.bandwidth:
        request.attributes += wire.pack(wire.O_BANDWIDTH, struct.pack("!f", request.bandwidth))
    return request
