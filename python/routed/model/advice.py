"""What a stream is that can't be rows, and what to do about a refusal or an error: said behind it, on the same line."""
from __future__ import annotations

import errno
import re

from .journals import MARK, batches, records
from .rows import FIELDS, OF_BOOK, Refused

KINDS = {*FIELDS, "except", "pair", *OF_BOOK}
FIRST_BYTES = {
    b"\x1f\x8b": "it is compressed by gzip: unpack it by gunzip",
    b"BZh": "it is compressed by bzip2: unpack it by bunzip2",
    b"\xfd7zXZ": "it is compressed by xz: unpack it by unxz",
    b"\x28\xb5\x2f\xfd": "it is compressed by zstd: unpack it by unzstd",
    b"PK\x03\x04": "it is a ZIP archive: unpack it by unzip",
    b"\xff\xfe": "it is UTF-16: make it UTF-8 by iconv -f UTF-16 -t UTF-8",
    b"\xfe\xff": "it is UTF-16: make it UTF-8 by iconv -f UTF-16 -t UTF-8",
}
SEPARATORS = {"\t": ("tabs", r"tr '\t' ,"), ";": ("semicolons", "tr ';' ,"), " ": ("spaces", "tr ' ' ,")}
LINE = re.compile(r"(?:network |before |scenario \d+ |most |version \d+$|(?:ask|except|pair|place|offer|show|left) [\d.,]+ v\d+ "
                  r"|(?:base|held|released) \d+ v|over [\d.,]+ \d$|lost \d+$"
                  r"|(?:batch|place|held|offer|release|show|left) [\d.,]+ refused: )")
HEADER = re.compile(r"\"?[A-Za-z_][A-Za-z0-9_ ]*\"?(?:,\"?[A-Za-z_][A-Za-z0-9_ ]*\"?)+")
# Of an error's or a refusal's words, what to do. Only the first that is found is said.
ADVICE = [(re.compile(found), told) for found, told in (
    ("No such file or directory", "give the path of a file that is there"),
    ("Is a directory", "give a file, not a folder"),
    ("Not a directory", "give a path whose folders are there"),
    ("Permission denied", "give yourself the right to it, or run this as another user"),
    ("No space left on device|Disk quota exceeded|File too large", "make room, and run this again"),
    ("Read-only file system", "write to another disk"),
    (r"timed out|Connection refused", "look whether the server runs, and at which place"),
    (r"refused: kind-of-pair", "write circuits or routers as the last field"),
    (r"^(?:book-report|sweep: the book): row \d+ refused: kind",
     "a row begins with put, drop, node, end, ask, place, held, offer, release, show or left"),
    (r"^(?:book-report|sweep: the book): row \d+ refused: fields",
     "a put row has 15 fields, a held row 11, an ask, place or offer row 10, a drop, node, end or left row 3, a release or show row 2"),
    (r"refused: kind", "a row begins with put, drop, node, end or ask"),
    (r"refused: fields", "a put row has 15 fields, an ask row 10, a drop, node or end row 3"),
    (r"refused: number \d+", "write digits without a sign, a point or leading zeros"),
    (r"refused: address \d+", "write four numbers from 0 to 255 with points between"),
    (r"refused: mask \d+", "write 0x and one to eight hexadecimal digits"),
    (r"refused: priority", "write a priority from 0 to 7"),
    (r"refused: except", "write up to 64 prefixes such as 10.0.12.0/31i and 192.0.2.7/32r with one space between"),
    (r"refused: hops", "write up to seven prefixes such as 10.9.0.0/16s with one space between"),
    (r"refused: (?:self-link|same-ends)", "give two different routers"),
    (r"refused: route", "write 16 hexadecimal digits for each link: its address and the router that it leads to, at last the tail-end"),
    (r"held \d+ refused: same-id", "release the tunnel that has the id, or leave the row out"),
    (r"refused: same-id", "give each request an id of its own"),
    (r"refused: expected (\d+)", "give the batch the number that is expected"),
    (r"refused: counted (\d+)", "write the number of the batch's changes into its end row"),
    (r"held \d+ refused: long", "give a route of at most 2048 links"),
    (r"held \d+ refused: twice", "give a route that has each link once"),
    (r"(?:place|offer) \d+ refused: (?:twice|long)", "give the tunnel other hops"),
    (r"(?:place|held|offer) \d+ refused: full", "release some tunnels: a book has at most 65536"),
    (r"refused: links", "release some tunnels: the routes of a book have at most 1048576 links"),
    (r"(?:place|held|offer|release) \d+ refused: exhausted", "begin a new book: take a new base, and place the tunnels again"),
    (r"refused: (?:keep \d+|stopped)", "make room, and run this again"),
    (r"refused: long", "cut the batch into batches of at most 4096 changes"),
    (r"refused: duplicate \d+", "leave one of the two changes of a link or a mark out"),
    (r"refused: absent \d+", "drop only links that are there"),
    (r"(?:release|show) \d+ refused: absent", "give the id of a tunnel that is placed"),
    (r"left \S+ refused: absent", "give the router and the interface at which a link of the base begins"),
    (r"(?:^|: )unended \d+", "write an end row behind the last change"),
    (r"torn after \d+", "cut the rows behind the last whole batch off"),
    (r"too many rows", "begin with a snapshot of the journal: routed snapshot --journal FILE"),
)]

OF_PLACE = {errno.ENOENT: "start the server, or give the place of one that runs",
            errno.ECONNREFUSED: "start the server, or give the place of one that runs",
            errno.EAGAIN: "too many programs connect at once: try again",
            errno.EACCES: "run it as a user of the socket's group (the groups routed and routed-updates of the package)"}


def format_of(data: bytes) -> str | None:
    """The words for a stream whose first bytes are of a format that is no text of rows; None for another stream."""
    for begin, told in FIRST_BYTES.items():
        if data.startswith(begin):
            return told
    text = data.removeprefix(MARK)[:4096]
    if b"\0" in text:
        return "it is UTF-16 without a mark: make it UTF-8 by iconv -f UTF-16LE -t UTF-8" if text[1:2] == b"\0" else "it is no text"
    if text.lstrip()[:1] in (b"{", b"["):
        return "it is JSON: a row is fields with commas between, such as drop,1.1.1.1,10.0.0.1"
    return None


def not_rows(data: bytes) -> str | None:
    """The words for a stream that can't be rows, by its first bytes or its first line. None for rows, and for what may be faulty rows."""
    if told := format_of(data):
        return told
    first = data.removeprefix(MARK)[:65536].lstrip(b"\r\n").decode("latin-1").splitlines()[:1]
    line = first[0] if first else ""
    if line.startswith("?SNDlib") or line.startswith("<"):
        return "it is a network of another format: routed-tools import makes rows of SNDlib's format and of GraphML"
    if LINE.match(line):
        return "it is lines that routed or a tool has written, not rows"
    for mark, (name, change) in SEPARATORS.items():
        if mark in line and line.split(mark)[0].strip('"') in KINDS:
            return f"its fields have {name} between: put commas there by {change}"
    if HEADER.fullmatch(line) and line.split(",")[0].strip('"') not in KINDS:
        return "its first line is a header, which rows don't have: leave it out by tail -n +2"
    return None


def why_torn(data: bytes) -> str:
    """Why a journal ends within a batch: its first row or batch that is refused, or how many changes no end row has."""
    count = 0
    try:
        for batch in batches(data):
            count += len(batch.changes) + 1
    except Refused as fault:
        return str(fault) + open_quote(data)
    return f"unended {sum(1 for _ in records(data)) - count}"


def open_quote(data: bytes) -> str:
    """Says which line has the quotation mark that is left open, where one is."""
    if data.count(b'"') % 2 == 0:
        return ""
    at = next(at for at, line in enumerate(data.split(b"\n"), 1) if line.count(b'"') % 2)
    return f", with a quotation mark left open in line {at}"


def of_place(fault: Exception) -> str:
    """What to do where a place of listen can't be connected to. There are no words for other errors, and for those of files."""
    return "" if getattr(fault, "filename", None) else OF_PLACE.get(getattr(fault, "errno", 0), "")


def advised(text: str) -> str:
    """The words for what went wrong, and behind them what to do."""
    told = next((told for found, told in ADVICE if found.search(text)), None)
    return f"{text}; {told}" if told else text
