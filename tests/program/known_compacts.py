"""Streams of `routed book --compact` whose outcome is known: worked ones, refused ones, and torn ones."""
from program.held_books import BACK, ROUND, THERE_AND_BACK
from program.known_books import BASE, CIRCUIT, ENDS, FREE, MASKS, ROUTE, held_row, offer, place

TORN, EXPLAIN = "--accept-torn", "--explain"
FIRST = "put,1.1.1.1,10.0.12.1,2.2.2.2,10.0.12.2,10,0x00000001,1000,1000,1000,1000,1000,1000,1000,1000\n"
SECOND = "put,2.2.2.2,10.0.12.2,1.1.1.1,10.0.12.1,10,0x00000001,1000,1000,1000,1000,1000,1000,1000,1000\n"
WRITTEN = f"{FIRST}{SECOND}end,1,2\n"  # the base BASE
ASK = f"ask,9,1.1.1.1,2.2.2.2,7,0,{MASKS},\n"
LEFT = "left,1.1.1.1,10.0.12.1\n"


def written(name, hold=7, bandwidth=1, route=ROUTE):
    """The row of a placement without affinities and hops."""
    return f"held,{name},1.1.1.1,2.2.2.2,{hold},{bandwidth},0x00000000,0x00000000,0x00000000,,{route}\n"


def accepted():
    """Streams that are accepted, and the shortest ones that make the same books."""
    yield "nothing", "", ""
    yield "a base", BASE, WRITTEN
    yield "a base of three batches, and marks", (
        f"put,{ENDS[1]},7,0x2,{FREE}\nnode,9.9.9.9,0\nend,1,2\n"
        f"node,2.2.2.2,0\nput,1.1.1.1,10.0.0.9,3.3.3.3,10.0.0.1,4294967295,0xAB,8,7,6,5,4,3,2,18446744073709551615\n{CIRCUIT}end,2,4\n"
        "drop,2.2.2.2,10.0.12.2\nnode,1.1.1.1,0\nnode,9.9.9.9,1\nend,3,3\n"), (
        "put,1.1.1.1,10.0.0.9,3.3.3.3,10.0.0.1,4294967295,0x000000ab,8,7,6,5,4,3,2,18446744073709551615\n"
        f"{FIRST}node,1.1.1.1,0\nnode,2.2.2.2,0\nend,1,4\n")
    yield "a mark alone", "node,4.3.2.1,0\nend,1,1\n", "node,4.3.2.1,0\nend,1,1\n"
    yield "a base that is empty again", BASE + "drop,1.1.1.1,10.0.12.1\ndrop,2.2.2.2,10.0.12.2\nend,2,2\n", ""
    yield "batches without changes", "end,1,0\nend,2,0\nend,3,0\n", ""
    yield "a placement", BASE + place(1), (
        "put,1.1.1.1,10.0.12.1,2.2.2.2,10.0.12.2,10,0x00000001,1000,1000,1000,1000,1000,1000,1000,1000\n"
        "put,2.2.2.2,10.0.12.2,1.1.1.1,10.0.12.1,10,0x00000001,1000,1000,1000,1000,1000,1000,1000,1000\n"
        "end,1,2\n"
        "held,1,1.1.1.1,2.2.2.2,7,1,0x00000000,0x00000000,0x00000000,,0a000c0102020202\n")
    yield "a placement of an empty base", held_row(1, 3, 5), written(1, 3, 5)
    yield "placements in the book's order", BASE + place(5) + held_row(9) + place(2), WRITTEN + written(5) + written(9) + written(2)
    yield "placed again it is the last one", BASE + place(5) + held_row(9, 3) + place(2) + place(9, 2, 4) + place(5, bandwidth=3), (
        WRITTEN + written(2) + written(9, 2, 4) + written(5, bandwidth=3))
    yield "placed again in vain it stays", BASE + place(5) + place(2) + place(5, bandwidth=2000) + offer(5, 0), (
        WRITTEN + written(5) + written(2))
    yield "released, and held again", BASE + place(5) + place(2) + "release,5\n" + held_row(5) + place(7) + "release,2\n", (
        WRITTEN + written(5) + written(7))
    yield "all released", BASE + place(5) + held_row(2) + "release,5\nrelease,2\n", WRITTEN
    yield "questions", BASE + ASK + offer(3) + place(1) + "show,1\n" + LEFT + ASK, WRITTEN + written(1)
    yield "hops, affinities, and the greatest numbers", BASE + (
        place(2 ** 64 - 1, 0, 0, "0xFFFFFFFE,0xffffffff,0x1", "2.9.8.7/8l 9.9.9.9/0l") + place(0, 6, 1, hops="ero:000c14010108020202022000")
        + held_row(7, 5, 2 ** 64 - 1, "0x0,0xABCDEF,0x00000001", "10.255.255.255/9s 8.8.8.8/32l", route=ROUND.upper())), WRITTEN + (
        "held,18446744073709551615,1.1.1.1,2.2.2.2,0,0,0xfffffffe,0xffffffff,0x00000001,2.0.0.0/8l 0.0.0.0/0l,0a000c0102020202\n"
        "held,0,1.1.1.1,2.2.2.2,6,1,0x00000000,0x00000000,0x00000000,2.2.2.2/32s,0a000c0102020202\n"
        "held,7,1.1.1.1,2.2.2.2,5,18446744073709551615,0x00000000,0x00abcdef,0x00000001,10.128.0.0/9s 8.8.8.8/32l,"
        "0a000d01030303030a00170302020202\n")
    yield "placements whose links are gone, and such as are over", BASE + place(1, bandwidth=900) + held_row(2, 0, 999) + (
        "drop,1.1.1.1,10.0.12.1\nend,2,1\n"), f"{SECOND}end,1,1\n" + written(1, bandwidth=900) + written(2, 0, 999)
    yield "changes around placements", CIRCUIT + held_row(1) + "end,1,2\n" + place(2), WRITTEN + written(1) + written(2)
    yield "a byte order mark, carriage returns, quotes, and no last line feed", (
        "\xef\xbb\xbf" + BASE.replace("\n", "\r\n\r\n") + place(1).replace("\n", "\r") + '"held","2",1.1.1.1,"2.2.2.2",7,1,0x0,0x0,0x0,"",'
        f'"{ROUTE}"'), WRITTEN + written(1) + written(2)


def refused():
    """Streams with a refused row, its line, and its number. What comes later isn't read."""
    first = BASE + held_row(1)
    for rows, line, at in [
        ("foo\n", "row 1 refused: kind", 1), (first + "held\n", "row 5 refused: fields", 5),
        (CIRCUIT + "end,01,2\n", "row 3 refused: number 2", 3),
        (first + held_row(2, route=ROUTE[1:]), "row 5 refused: route", 5), (first + place(2, hops="x"), "row 5 refused: hops 1", 5),
        (BASE + "end,1,0\n", "batch 1 refused: expected 2", 4), (CIRCUIT + "end,1,3\n", "batch 1 refused: counted 2", 3),
        (BASE + "drop,1.1.1.1,10.0.0.9\nend,2,1\n", "batch 2 refused: absent 1", 5),
        (CIRCUIT + CIRCUIT + "end,1,4\n", "batch 1 refused: duplicate 3", 5),
        (first + held_row(1), "held 1 refused: same-id", 5), (first + held_row(2, route=BACK), "held 2 refused: twice", 5),
        (first + place(2, hops=THERE_AND_BACK), "place 2 refused: twice", 5),
        (first + offer(1, hops=THERE_AND_BACK), "offer 1 refused: twice", 5),
        (first + "release,2\n", "release 2 refused: absent", 5), (first + "show,2\n", "show 2 refused: absent", 5),
        (first + "left,1.1.1.1,10.0.12.2\n", "left 1.1.1.1,10.0.12.2 refused: absent", 5),
        (CIRCUIT + "foo\n" + "end,1,2\n", "row 3 refused: kind", 3),
    ]:
        yield f"refused by {line}", rows, line, at
        yield f"refused by {line}, and more", f"{rows}bar\nend,9,9\n{CIRCUIT}release,7\n{held_row(8)}", line, at
    rows = BASE + place(1) + held_row(2, bandwidth=2000) + "drop,1.1.1.1,10.0.12.1\nend,2,1\nend,2,0\n"
    yield "over and lost before a refused row", rows, "batch 2 refused: expected 3", 8


def cut():
    """Torn streams: what is left out at the end, what comes before it, and of that the status, the text and what is said with
    `--explain`."""
    both, said = WRITTEN + written(12) + written(123), "routed: standard input: "
    rows = BASE + place(12) + place(123)
    for name, front, rest, text in [
        ("nothing", "", "", ""), ("nothing to leave out", rows, "", both), ("a release row of a longer id", rows, "release,12", both),
        ("a batch without its last line feed", rows, "end,2,0", both), ("a batch whose count is cut", rows, "node,9.9.9.9,0\nend,2,", both),
        ("changes", rows, f"{FIRST}{SECOND[:40]}", both), ("changes and their line feeds", rows, FIRST + SECOND, both),
        ("a placement without its line feed", BASE + place(12), place(123)[:-1], WRITTEN + written(12)),
        ("a held row without its last link", BASE, held_row(1, route=ROUND)[:-17], WRITTEN),
        ("a held row without its line feed", BASE, held_row(1)[:-1], WRITTEN), ("zero bytes", rows, "\0" * 4096, both),
        ("zero bytes behind a row without its line feed", rows, "release,12" + "\0" * 4096, both),
        ("zero bytes and a line feed", rows, "\0" * 9 + "\n", both), ("zero bytes alone", "", "\0" * 512, ""),
        ("nothing whole", "", FIRST + SECOND, ""), ("a line feed alone", "", "\n", ""), ("the beginning of a row", "", "hel", ""),
        ("rows that refuse or ask at the end", rows, f"foo\nshow,7\n{LEFT}{ASK}{offer(1)}", both),
        ("words that only begin so", rows, "ends,2,0\nend\nplaced,1\nreleased,1\nhelds,1\n end,2,0\n,end,2,0\nEND,2,0\n", both),
        ("quotes", rows, '"end",2,0\n"release","12"\n', both),
        ("carriage returns for line feeds", rows, "foo\rend,2,0\rrelease,12\r", both),
        ("a carriage return before an end row", rows, "node,9.9.9.9,0\rend,2,1\n", both),
        ("no line feed at all", "", rows.replace("\n", "\r"), ""),
        ("a byte order mark before an end row", "", "\xef\xbb\xbfend,1,0\n", ""),
        ("a carriage return and a line feed", rows.replace("\n", "\r\n"), "release,12\r", both),
    ]:
        yield f"torn: {name}", front, rest, 0, text, ""
    for name, front, rest, line, at in [
        ("a refused row, and a whole one after it", f"{BASE}foo\n{place(1)}", "foo\n", "row 4 refused: kind", 4),
        ("a refused batch at the end", BASE + "end,7,0\n", "", "batch 7 refused: expected 2", 4),
        ("an end row that can't be read", BASE + "end,\n", "x", "row 4 refused: fields", 4),
        ("a release row that is refused", BASE + "release,1\n", CIRCUIT, "release 1 refused: absent", 4),
        ("a quote with an end row in it", BASE + 'foo,"\nend,2,0\n', '"\n', "row 4 refused: kind", 4),
    ]:
        yield f"torn: {name}", front, rest, 2, f"{line}\n", f"{said}row {at}: {line}\n"
    yield "torn: open changes around a placement", CIRCUIT + held_row(1), FIRST, 2, "unended 2\n", f"{said}unended 2\n"


def known():
    """Each stream with the words that it is run with: status, text, and what is said with `--explain`."""
    for name, rows, text in accepted():
        yield name, rows, [], 0, text, ""
    for name, rows, line, at in refused():
        yield name, rows, [], 2, f"{line}\n", f"routed: standard input: row {at}: {line}\n"
    for name, rows, count in [("changes alone", CIRCUIT, 2), ("changes behind a placement", BASE + place(1) + FIRST, 1),
                              ("a change without its line feed", BASE + FIRST[:-1], 1),
                              ("changes before a placement", CIRCUIT + held_row(1), 2)]:
        yield name, rows, [], 2, f"unended {count}\n", f"routed: standard input: unended {count}\n"
    yield "a release row of a longer id that is torn, and not accepted as torn", BASE + place(12) + place(123) + "release,12", [], 0, (
        WRITTEN + written(123)), ""
    for name, front, rest, status, text, said in cut():
        count = len(rest.encode("latin-1"))
        yield name, front + rest, [TORN], status, text, (f"routed: standard input: {count} bytes left out\n" if count else "") + said
