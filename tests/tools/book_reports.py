"""`routed-tools book-report` against tests/reference/books.py, on the example and on drawn books."""
import json
import os
import subprocess
import tempfile

from checks import TOOLS, TOP
from program.drawn_books import ALL, USUAL, Drawn
from program.held_books import BACK, LEFT, THERE_AND_BACK, way
from program.known_books import BASE, DIRECT, held_row, offer
from program.serving import PATIENCE
from reference import books, formats
from reference.formats import address_text
from reference.swept_books import cost
from tools.ring import RESTORED

from routed.front.naming import Naming
from routed.model.advice import advised, not_rows
from routed.model.names import Names

BOOKS, STEPS = 12, 40  # drawn


def report(program, *words, rows=""):
    ran = subprocess.run([TOOLS, "book-report", "--program", program.path, *words], input=rows, capture_output=True, text=True,
                         timeout=PATIENCE, encoding="latin-1")
    return ran.returncode, ran.stdout, ran.stderr


def wanted_of(rows):
    """The tunnels and the links of a book, by the reference."""
    book, changes, unplaced = books.Book(), [], {}
    for fields in formats.records(rows):
        try:
            kind, content = books.row(fields)
            if kind in ("put", "drop", "node"):
                changes.append((kind, content))
            elif kind == "end":
                open_ones, changes = changes, []
                book.end(open_ones, content)
            elif kind in ("place", "held"):
                before, request = book.version, content["request"] if kind == "held" else content
                try:
                    if kind == "held":
                        book.restore(request, content["route"])
                    else:
                        book.place(request)
                finally:
                    if book.version > before:
                        unplaced.pop(request["id"], None)
                    elif request["id"] not in {it.request["id"] for it in book.placements}:
                        unplaced[request["id"]] = request
            elif kind == "release":
                book.release(content["id"])
        except formats.Refused:
            pass
    sums, effective = books.counted(book.placements), books.effective(book.base, book.placements)
    tunnels = [(it.request["id"], it.request["hold"], it.request["bandwidth"], "placed" if books.admits(book.base, it) else "lost",
                cost(book.base, it), [[address_text(link["from"]), address_text(link["local"])] for link in it.route])
               for it in sorted(book.placements, key=lambda it: it.request["id"])]
    tunnels += [(name, it["hold"], it["bandwidth"], "not placed", None, None) for name, it in sorted(unplaced.items())]
    links = [(address_text(key[0]), address_text(key[1]), list(sums.get(key, [0] * 8)), list(effective.links[key]["free"]),
              sum(key in {books.key_of(link) for link in it.route} for it in book.placements),
              any(held > free for held, free in zip(sums.get(key, [0] * 8), book.base.links[key]["free"]))) for key in book.base.links]
    return book.version, tunnels, sorted(links, key=lambda it: (it[3][7], *(formats.address_number(text) for text in it[:2])))


def found_of(text):
    told = json.loads(text)
    tunnels = [(it["id"], it["hold"], it["bandwidth"], it["state"], it.get("cost"), it.get("route")) for it in told["tunnels"]]
    return told["version"], tunnels, [(it["router"], it["interface"], it["counted"], it["left"], it["tunnels"], it["over"])
                                      for it in told["links"]]


def drawn_reports(program, checks, room):
    """Books, each second one of all kinds of rows: what is placed, lost, not placed, counted and left."""
    seen = set()
    for seed in range(BOOKS):
        drawn = Drawn(seed, ALL if seed % 2 else USUAL)
        for _ in range(STEPS):
            drawn.step()
        rows = "".join(f"{row}\n" for row in drawn.rows)
        status, _ = books.book(rows)
        found = report(program, "--json", "-", rows=rows)
        wanted = wanted_of(rows)
        checks.same(f"the report of book {seed}", (found[0], found_of(found[1])), (status, wanted))
        seen |= {(state, found_cost is not None) for _, _, _, state, found_cost, _ in wanted[1]}
    checks.same("the states that were seen, and whether there was a cost", seen,
                {("placed", True), ("lost", True), ("lost", False), ("not placed", False)})


def restored(program, checks, room):
    """A book with tunnels that held rows restored, worked by hand, and the same book by its file of `--keep`. A held row that is refused
    places nothing."""
    kept = os.path.join(room, "kept")
    checks.same("what is kept of a book with restored tunnels", program.run(["book", "--keep", kept], RESTORED.encode())[0], 0)
    for name, path in (("its rows", "-"), ("its file of --keep", kept)):
        checks.same(f"a book with restored tunnels, by {name}", report(program, path, rows=RESTORED), (0, OF_RESTORED, ""))
    tunnel = held_row(2, route=BACK)
    status, out, err = report(program, "--json", "-", rows=BASE + tunnel + held_row(3, bandwidth=0) + tunnel)
    checks.same("a held row that is refused", (status, [(it["id"], it["state"], it.get("cost")) for it in json.loads(out)["tunnels"]], err),
                (2, [(3, "placed", 10), (2, "not placed", None)],
                 "book-report: held 2 refused: twice, and 1 more; give a route that has each link once\n"))


OF_RESTORED = """version 5: 4 tunnels placed, 1 of them lost, 0 not placed; 8 links
tunnels:
id  from     to       hold  bandwidth  cost  state  by
 5  1.1.1.1  3.3.3.3     0      0.48k    25         4.4.4.4
 6  1.1.1.1  2.2.2.2     7      0.64k    10
 7  1.1.1.1  3.3.3.3     0      0.24k    20         2.2.2.2
 8  1.1.1.1  2.2.2.2     0          0        lost
links:
from     interface  to       unreserved at 7  counted   left  tunnels
1.1.1.1  10.0.12.1  2.2.2.2             0.8k    0.88k      0        2  over
1.1.1.1  10.0.14.1  4.4.4.4             0.8k    0.48k  0.32k        1
4.4.4.4  10.0.34.4  3.3.3.3             0.8k    0.48k  0.32k        1
2.2.2.2  10.0.23.2  3.3.3.3             0.8k    0.24k  0.56k        1
2.2.2.2  10.0.12.2  1.1.1.1             0.8k        0   0.8k        0
3.3.3.3  10.0.23.3  2.2.2.2             0.8k        0   0.8k        0
3.3.3.3  10.0.34.3  4.4.4.4             0.8k        0   0.8k        0
4.4.4.4  10.0.14.4  1.1.1.1             0.8k        0   0.8k        0
"""


def refused_reports(program, checks, room):
    """What can't be read, or isn't a book."""
    book = os.path.join(TOP, "examples/nsfnet.book")
    for words, status, line in (((os.path.join(room, "absent"),), 1, f"book-report: {room}/absent: No such file or directory; give the path"
                                                                     " of a file that is there\n"),
                                ((book, "--below", "1"), 2, "book-report: '1' is no bandwidth: 2.5G, 400M and 64k are bits per second, and "
                                                            "125000000B and 125MB are bytes per second\n"),
                                ((room,), 1, f"book-report: {room}: Is a directory; give a file, not a folder\n")):
        found = report(program, *words)
        checks.same(f"book-report {words}", (found[0], found[2]), (status, line))
    fields = ("a put row has 15 fields, a held row 11, an ask, place or offer row 10, a drop, node, end or left row 3, a release or show "
              "row 2")
    digits = "write 16 hexadecimal digits for each link: its address and the router that it leads to, at last the tail-end"
    for rows, line in (("put,1\nend,1,0\n", f"row 1 refused: fields; {fields}"),
                       ("hold,1\n", "row 1 refused: kind; a row begins with put, drop, node, end, ask, place, held, offer, release, show "
                                     "or left"),
                       (held_row(1, route="0a"), f"row 1 refused: route; {digits}"),
                       (held_row(1) * 2, "held 1 refused: same-id; release the tunnel that has the id, or leave the row out"),
                       (held_row(1, route=way(2049)[0]), "held 1 refused: long; give a route of at most 2048 links"),
                       (BASE + offer(1, hops=THERE_AND_BACK), "offer 1 refused: twice; give the tunnel other hops"),
                       ("show,1\n", "show 1 refused: absent; give the id of a tunnel that is placed"),
                       (LEFT, "left 1.1.1.1,10.0.12.1 refused: absent; give the router and the interface at which a link of the base "
                              "begins")):
        found = report(program, "-", rows=rows)
        checks.same(f"a row that is refused: {line[:60]}", (found[0], found[2]), (2, f"book-report: {line}\n"))


def words(program, checks, room):
    """What is said of refusals that take many rows, of rows and lines of books in the place of others, and the names in them."""
    new, free = "begin a new book: take a new base, and place the tunnels again", "release some tunnels: a book has at most 65536"
    for text, told in (("held 1 refused: exhausted", new), ("offer 1 refused: exhausted", new), ("held 1 refused: full", free),
                       ("offer 1 refused: full", free), ("place 1 refused: long", "give the tunnel other hops"),
                       ("held 1 refused: links", "release some tunnels: the routes of a book have at most 1048576 links"),
                       ("held 1 refused: keep 7", "make room, and run this again"),
                       ("offer 1 refused: stopped", "make room, and run this again"),
                       ("batch 2 refused: long", "cut the batch into batches of at most 4096 changes"),
                       ("request row 2 refused: kind", "a row begins with put, drop, node, end or ask"),
                       ("connect: book: row 2 refused: kind", "a row begins with put, drop, node, end or ask")):
        checks.same(f"what to do about {text}", advised(text), f"{text}; {told}")
    for rows in (held_row(1), offer(1), "show,1\n", LEFT):
        checks.same(f"rows {rows[:5]}", [not_rows(rows.replace(",", mark).encode()) for mark in (",", ";")],
                    [None, "its fields have semicolons between: put commas there by tr ';' ,"])
    rows = BASE + RESTORED[RESTORED.index("held"):] + held_row(8) + "release,5\nshow,5\n" + LEFT.replace("12.1", "12.9")
    for line in books.book(rows)[1]:
        checks.same(f"a line {line[:20]}", not_rows(f"{line}\n".encode()), "it is lines that routed or a tool has written, not rows")
    names = os.path.join(room, "names")
    with open(names, "w", encoding="ascii") as file:
        file.write("1.1.1.1 North\n2.2.2.2 South\n")
    naming = Naming(Names.read(names), {})
    for row in (held_row(1), offer(1), LEFT):
        checks.same(f"names in a row {row[:5]}", naming.row(row.replace("1.1.1.1", "North").replace("2.2.2.2", "South")), row)
    line = f"offer 1 v2 {DIRECT}"
    naming.row(BASE.splitlines()[0])
    checks.same("the names of a line of an offer", naming.line(line), f"{line}  # South")


def book_reports(program, checks):
    with tempfile.TemporaryDirectory() as room:
        checks.parts_in(room, (drawn_reports, restored, refused_reports, words), program, checks)
