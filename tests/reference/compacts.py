"""What `routed book --compact` writes, from the formats' own words (docs/run/FORMATS.md), over tests/reference/books.py.

Small and slow on purpose; nothing in it is taken from the program.
"""
from reference import books, runs
from reference.formats import address_text

SETTLING = (b"end,", b"place,", b"release,", b"held,")  # how lines begin up to which nothing is left out
MASKS = ("exclude_any", "include_any", "include_all")
INPUT = "routed: standard input:"


# ---- the shortest stream that makes a book


def hops_text(hops):
    """Bits past the length of a prefix count as zero, and are written so."""
    return " ".join(f"{address_text(prefix >> 32 - bits << 32 - bits)}/{bits}{'l' if is_loose else 's'}" for prefix, bits, is_loose in hops)


def route_text(links):
    return "".join(f"{link['local']:08x}{link['to']:08x}" for link in links)


def held_text(placement):
    """The `held` row of a placement, with its line feed."""
    request = placement.request
    fields = ["held", request["id"], address_text(request["from"]), address_text(request["to"]), request["hold"], request["bandwidth"],
              *(f"0x{request[mask]:08x}" for mask in MASKS), hops_text(request["hops"]), route_text(placement.route)]
    return ",".join(map(str, fields)) + "\n"


def book_text(book):
    """The snapshot of the base, and a row for each placement, in the book's order."""
    return runs.snapshot_of(book.base) + "".join(map(held_text, book.placements))


# ---- a run


def settled(rows):
    """The bytes up to the last whole line that ends a batch, or is about a placement. A line is whole if it has its line feed."""
    lines = rows.split(b"\n")[:-1]
    while lines and not lines[-1].startswith(SETTLING):
        lines.pop()
    return b"".join(line + b"\n" for line in lines)


def whole(rows):
    """The book of rows. Where a row is refused or changes are open at the end there is none, but the line that says so, and in which row.
    No row is read behind a refused one."""
    book, changes = books.Book(), []
    for at, step in enumerate(books.walked(rows), 1):
        if step.is_refused:
            return None, step.lines[0], f"row {at}: "
        book, changes = step.book, step.changes
    if changes:
        return None, f"unended {len(changes)}", ""
    return book, "", ""


def run(rows, torn=False):
    """The status of a run, what it writes, and what it says with `--explain`."""
    given = rows.encode("latin-1") if isinstance(rows, str) else rows
    taken = settled(given) if torn else given
    said = f"{INPUT} {len(given) - len(taken)} bytes left out\n" if len(taken) < len(given) else ""
    book, line, at = whole(taken.decode("latin-1"))
    if book is None:
        return 2, f"{line}\n", f"{said}{INPUT} {at}{line}\n"
    return 0, book_text(book), said


def compact(rows, torn=False):
    """The status of a run, and what it writes."""
    return run(rows, torn)[:2]
