"""Streams of rows that are valid, drawn from a seed, and changes to their bytes.

All text is bytes as characters (latin-1). `draw` is a random.Random throughout.
"""
import functools
import re

MEGABYTE = 1_000_000
ROUTERS = 4


# ---- valid rows: few routers and addresses, so that keys, hops and ends meet


def circuits(draw, links, routers, interfaces, many, gone):
    """What a batch changes: `many` circuits at most that come or change, and `gone` that go. By the near end of each link, an
    interface of a router, it has the far one, None where it goes. `links` has the far ends before the batch, and then after it.

    A tenth of the circuits comes or goes in one direction alone."""
    def whole():
        return draw.random() < 0.9

    changes = {}
    for _ in range(many):
        near, far = ((router, draw.randrange(interfaces)) for router in draw.sample(range(routers), 2))
        if draw.random() < 0.7:
            far = links.get(near, far)
        if near not in changes and far not in changes:
            changes.update({near: far, far: near} if whole() else {near: far})
    going = [near for near, far in changes.items() if near in links and links[near] != far]  # their interfaces are taken
    going += draw.sample(sorted(links), min(len(links), gone))
    for near in going:
        if near not in changes:
            changes[near] = None
        if links.get(links[near]) == near and links[near] not in changes and whole():
            changes[links[near]] = None
    for near, far in changes.items():
        links.pop(near, None) if far is None else links.update({near: far})
    return changes


def row_of(near, far, attributes):
    """A drop row where there is no far end, and else a put row."""
    ends = ",".join(f"10.0.0.{router},172.16.0.{interface}" for router, interface in filter(None, (near, far)))
    return f"put,{ends},{attributes}" if far else f"drop,{ends}"


def mark_rows(draw, routers, many):
    """Rows that say of some routers whether they have transit, each at most once. One of them may be no router."""
    return [f"node,10.0.0.{router},{draw.choice([0, 0, 1])}" for router in draw.sample(range(routers + 1), many)]


def mixed(draw, rows, more):
    """The rows with others among them."""
    for row in more:
        rows.insert(draw.randrange(len(rows) + 1), row)
    return rows


def batch_rows(draw, number, links, marks=0):
    """A batch that fits where these links are there, by both ends, which become those after it. Where it has marks, so many at
    most, routers come and go more often."""
    rows, many, gone = [], draw.randrange(2, 8), draw.choice([0, 0, 1])
    if marks:
        many, gone = draw.choice([many, 1]), draw.choice([gone, 1, 99])
    for near, far in circuits(draw, links, ROUTERS, 5, many, gone).items():
        free = ",".join(draw.choice(["0", "5", "1000", "1000"]) for _ in range(8))
        rows.append(row_of(near, far, f"{draw.randrange(4)},0x{draw.randrange(8):x},{free}"))
    mixed(draw, rows, mark_rows(draw, ROUTERS, draw.randrange(marks + 1)))
    return [*rows, f"end,{number},{len(rows)}"]


def ask_row(draw, name, hops):
    start, end = draw.sample(range(ROUTERS), 2)
    masks = ",".join(draw.choice(["0x0", "0x0", "0x0", "0x1", "0x6"]) for _ in range(3))
    return f"ask,{name},10.0.0.{start},10.0.0.{end},{draw.randrange(8)},{draw.choice([0, 0, 5, 1000])},{masks},{hops}"


def hop_list(draw, count):
    tops = [(draw.choice(["10.0.0", "172.16.0"]), draw.randrange(ROUTERS), draw.choice([0, 8, 29, 31, 32, 32])) for _ in range(count)]
    return " ".join(f"{top}.{last}/{bits}{draw.choice('sl')}" for top, last, bits in tops)


def subobject(draw):
    return bytearray([draw.choice([1, 129]), 8, 10, 0, 0, draw.randrange(ROUTERS), draw.choice([0, 8, 29, 31, 32, 32]),
                      draw.randrange(256)])


def object_text(parts):
    return "ero:" + (bytes([0, 4 + 8 * len(parts), 20, 1]) + b"".join(parts)).hex()


def ask_rows(draw, first=0):
    rows = []
    for name in range(first, first + draw.randrange(4)):
        count = draw.choice([0, 0, 1, 1, 2, 7])
        hops = object_text([subobject(draw) for _ in range(count)]) if count and draw.random() < 0.3 else hop_list(draw, count)
        rows.append(ask_row(draw, name, hops))
    return rows


def stream_of(rows):
    return "".join(f"{row}\n" for row in rows)


def script(draw):
    links, rows, marks = {}, [], draw.choice([0, 0, 3])
    for number in range(1, draw.randrange(2, 5) + marks):
        rows += batch_rows(draw, number, links, marks) + ask_rows(draw)
    return stream_of(rows)


def journal(draw):
    links, rows, marks = {}, [], draw.choice([0, 0, 3])
    for number in range(1, draw.randrange(1, 5) + marks):
        rows += batch_rows(draw, number, links, marks)
    return stream_of(rows)


def updates(draw, batches, routers=12):
    """Batches that fit, one after the other, on a larger network."""
    links, rows = {}, []
    for number in range(1, batches + 1):
        changes = circuits(draw, links, routers, 4, 4, draw.choice([0, 1]))
        for near, far in changes.items():
            free = ",".join(str(draw.choice([0, 5, 10])) for _ in range(8))
            rows.append(row_of(near, far, f"{draw.randrange(1, 9)},0x{draw.randrange(8):08x},{free}"))
        marks = mark_rows(draw, routers, draw.choice([0, 0, 1]))
        rows += [*marks, f"end,{number},{len(changes) + len(marks)}"]
    return stream_of(rows)


def requests(draw):
    return stream_of(ask_rows(draw) + ask_rows(draw, draw.choice([4, 4, 4, 4, 0])))


# ---- changes: each takes a draw and a text, and gives another text

SINGLE = [
    "\0", "\r", "\n", '"', ",", " ", "\t", "#", "0", "1", "9", ".", "/", ":", "s", "l", "x", "X", "-", "+", "_", "a", "F",
    "\x7f", "\x80", "\xff", "\xef\xbb\xbf", "\xd9\xa3",
]
LINES = [
    "", "", "\r", " ", "#", "# a comment", "#,", ",", ",,", '"', '""', '"",', "foo", "put", "drop", "node", "end", "ask", "PUT", "put ",
    "end,1,0", "end,2,0",
    "drop,10.0.0.1,172.16.0.1", "node,10.0.0.1,0", "node,10.0.0.2,2", "\0", "\xef\xbb\xbf", "version 1", ",put", "," * 20, "applied",
    "batch 1 refused: full", "versions", "ask 7 v1",
]
NUMBERS = [
    "", "0", "00", "01", "7", "8", "07", "32", "33", "255", "256", "4294967295", "4294967296", "18446744073709551615",
    "18446744073709551616", "99999999999999999999999", "-1", "+1", "-0", "1_0", " 1", "1 ", "1.0", "1e1", "0x1", "\xb9",
]
MASKS = [
    "", "0x", "0x0", "0x00000001", "0xffffffff", "0xAbCdEf01", "0x100000000", "0x000000001", "0X1", "1", "x1", "0xg", "0x-1", "0x+1",
    "0x1_0", " 0x1", "0x1 ", "0x 1",
]
LENGTHS = ["", "/", "/0", "/00", "/01", "/8", "/31", "/32", "/33", "/032", "/099", "/100", "/-1", "/+1", "/ 8", "/8/8", "/4294967296",
           "/18446744073709551648"]
OCTETS = ["", "0", "00", "01", "255", "256", "0255", "999", "1000", "-1", "+1", " 1", "1.1", "4294967297", "0x1"]
EDGES = {"mask": MASKS, "prefix length": LENGTHS, "part of an address": OCTETS, "number": NUMBERS}
VALUE = re.compile("0x[0-9a-f]+|/[0-9]+|[0-9]+")


def kind_of(text, place):
    """What the value there is."""
    if place[0].startswith("0x"):
        return "mask"
    if place[0].startswith("/"):
        return "prefix length"
    beside = text[place.start() - 1:place.start()] + text[place.end():place.end() + 1]
    return "part of an address" if "." in beside else "number"


def at_edges(text, place):
    """The texts with the value there at its last value, one past it, one beside it, and in other spellings."""
    old, kind = place[0], kind_of(text, place)
    near = [str(int(old) + 1), str(abs(int(old) - 1)), "0" + old] if kind == "number" and len(old) < 30 else []
    return [text[:place.start()] + value + text[place.end():] for value in EDGES[kind] + near]


def quoted(field, cut):
    """Ways to put a field in quotes, and such as only look like it; some have quotes, or more, where it is cut."""
    first, rest = field[:cut], field[cut:]
    return [
        f'"{field}"', f'"{first}"{rest}', f'"{first}""{rest}"', f'"{first}"""{rest}', f'"{field}', f'{field}"', f'{first}"{rest}',
        f' "{field}"', f'"{field}" ',
        f'""{field}', f'""{field}""', f'"""{field}"""', f'"{first},{rest}"', f'"{first}""{rest},{field}"', f'"{first}\n{rest}"',
        f'"{first}\r\n{rest}"', f"'{field}'",
    ]


def byte_changed(draw, text):
    at = draw.randrange(len(text))
    new = draw.choice(SINGLE) if draw.random() < 0.7 else chr(draw.randrange(256))
    return text[:at] + new + text[at + 1:]


def byte_dropped(draw, text):
    at = draw.randrange(len(text))
    return text[:at] + text[at + 1:]


def byte_doubled(draw, text):
    at = draw.randrange(len(text))
    return text[:at] + text[at] + text[at:]


def byte_added(draw, text):
    at = draw.randrange(len(text) + 1)
    return text[:at] + draw.choice(SINGLE) + text[at:]


def of_lines(change):
    """A change of the list of lines, at one of them."""
    @functools.wraps(change)
    def changed(draw, text):
        lines = text.split("\n")
        change(draw, lines, draw.randrange(len(lines)))
        return "\n".join(lines)
    return changed


def of_fields(change):
    """A change of the list of a line's fields, at one of them."""
    @functools.wraps(change)
    def changed(draw, lines, at):
        fields = lines[at].split(",")
        change(draw, fields, draw.randrange(len(fields)))
        lines[at] = ",".join(fields)
    return of_lines(changed)


@of_fields
def field_dropped(draw, fields, at):
    del fields[at]


@of_fields
def field_doubled(draw, fields, at):
    fields.insert(at, fields[at])


@of_fields
def field_emptied(draw, fields, at):
    fields[at] = ""


@of_fields
def fields_swapped(draw, fields, at):
    other = draw.randrange(len(fields))
    fields[at], fields[other] = fields[other], fields[at]


@of_fields
def field_quoted(draw, fields, at):
    fields[at] = draw.choice(quoted(fields[at], draw.randrange(len(fields[at]) + 1)))


@of_fields
def field_of_a_megabyte(draw, fields, at):
    filling = draw.choice(["0", "9", "1.", "a", " ", '"', "\0", "10.0.0.1/32l ", "ero:00"])
    fields[at] += filling * (MEGABYTE // len(filling))


@of_lines
def hops_repeated(draw, lines, at):
    asked = [place for place, line in enumerate(lines) if line.startswith("ask,") and line.count(",") == 9]
    if asked:
        at = draw.choice(asked)
        joint = draw.choice([" ", " ", " ", "  ", ",", "\t"])
        field = joint.join(hop_list(draw, 1) for _ in range(draw.choice([1, 2, 6, 7, 8, 9, 100])))
        lines[at] = lines[at].rpartition(",")[0] + "," + field + draw.choice(["", "", "", " ", "x", " x", "/33l"])


def value_at_its_edge(draw, text):
    kinds = {}
    for place in VALUE.finditer(text):
        kinds.setdefault(kind_of(text, place), []).append(place)
    return draw.choice(at_edges(text, draw.choice(draw.choice(list(kinds.values()))))) if kinds else text


@of_lines
def lines_joined(draw, lines, at):
    lines[at:at + 2] = ["".join(lines[at:at + 2])]


@of_lines
def line_cut(draw, lines, at):
    lines[at] = lines[at][:draw.randrange(len(lines[at]) + 1)]


@of_lines
def line_parted(draw, lines, at):
    cut = draw.randrange(len(lines[at]) + 1)
    lines[at:at + 1] = [lines[at][:cut], lines[at][cut:]]


@of_lines
def line_dropped(draw, lines, at):
    del lines[at]


@of_lines
def line_doubled(draw, lines, at):
    lines.insert(at, lines[at])


@of_lines
def lines_swapped(draw, lines, at):
    other = draw.randrange(len(lines))
    lines[at], lines[other] = lines[other], lines[at]


@of_lines
def line_added(draw, lines, at):
    lines.insert(at, draw.choice(LINES))


def stream_cut(draw, text):
    return text[:draw.randrange(len(text) + 1)]


def last_line_feed_dropped(draw, text):
    return re.sub("\n\\Z", "", text)


def line_ends_changed(draw, text):
    return text.replace("\n", draw.choice(["\r\n", "\r", "\n\n", "\n\r", "\r\r\n", " \n", ",\n"]))


def byte_order_mark(draw, text):
    return draw.choice(["\xef\xbb\xbf", "\xef\xbb\xbf", "\xef\xbb", "\xef", "\xef\xbb\xbf\xef\xbb\xbf", "\n\xef\xbb\xbf", "\xff\xfe",
                        '\xef\xbb\xbf"']) + text


@of_lines
def reply_retold(draw, lines, at):
    """A reply line with another id, version or outcome, in its place or before it, as a run might have written it."""
    told = [place for place, line in enumerate(lines) if re.match("ask [0-9]+ v[0-9]+ ", line)]
    if told:
        at = draw.choice(told)
        _, name, version, rest = lines[at].split(" ", 3)
        other = lines[draw.choice(told)]
        lines[at:at + draw.choice([0, 1, 1])] = [draw.choice([
            f"ask {draw.choice([draw.randrange(9)] * 4 + [2**64 - 1, 2**64])} {version} {rest}", f"ask {name} v{draw.randrange(5)} {rest}",
            f"ask {name} v{int(version[1:]) + draw.choice([1, 1, 4])} {rest}",
            f"ask {name} {version} {draw.choice(['none', 'unknown-from', 'unknown-to', rest.upper(), rest + ' '])}",
            f"ask {name} {version} {other.split(' ', 3)[3]}", lines[at].replace("again=no", "again=yes"),
            lines[at].replace("again=yes", "again=no"),
        ])]


USUAL = [
    byte_changed, byte_dropped, byte_doubled, byte_added, field_dropped, field_doubled, field_emptied, fields_swapped, field_quoted,
    value_at_its_edge,
    value_at_its_edge, hops_repeated, lines_joined, line_cut, line_parted, line_dropped, line_doubled, lines_swapped, line_added,
    stream_cut, last_line_feed_dropped, line_ends_changed, byte_order_mark,
]
OF_REPLIES = USUAL + [reply_retold] * 12


def counts_mended(text):
    """The text with the number of changes before it in each end row, so that what else is wrong with a batch comes to light."""
    lines, count = text.split("\n"), 0
    for at, line in enumerate(lines):
        if line.startswith(("put,", "drop,", "node,")):
            count += 1
        elif re.fullmatch("end,[0-9]+,[0-9]+", line):
            lines[at], count = f"{line.rpartition(',')[0]},{count}", 0
    return "\n".join(lines)


def changed(draw, text, usual=USUAL):
    """The text after one to three changes, and their names."""
    names = []
    for _ in range(draw.choice([1, 1, 1, 2, 3])):
        change = field_of_a_megabyte if draw.random() < 0.002 else draw.choice(usual)
        if text:
            text = change(draw, text)
            names.append(change.__name__)
    if draw.random() < 0.3:
        text = counts_mended(text)
    return text, names


# ---- objects


def changed_object(draw):
    """A hops field that spells an object with, mostly, something wrong in it, and a length that mostly fits."""
    parts = [subobject(draw) for _ in range(draw.choice([0, 1, 1, 2, 3, 6, 7, 8]))]
    if parts and draw.random() < 0.6:
        part = draw.choice(parts)
        at, values = draw.choice([(0, [0, 2, 3, 4, 32, 127, 128, 130, 131, 255]), (1, [0, 1, 4, 7, 9, 16, 136, 255]),
                                  (6, [0, 1, 31, 32, 33, 128, 255])])
        part[at] = draw.choice(values)
    body = b"".join(parts)
    if draw.random() < 0.3:
        body = draw.choice([body[:-4], body[:-1], body[:draw.randrange(len(body) + 1)], body + bytes(4), body + body[:4],
                            body + b"\x20\x04\0\0", body + bytes(60)])
    length = len(body) + 4 if draw.random() < 0.8 else draw.choice([0, 4, len(body), len(body) + 3, len(body) + 5, len(body) + 8,
                                                                    len(body) + 260, 65535])
    data = length.to_bytes(2, "big") + bytes([draw.choice([20] * 30 + [0, 19, 21, 148, 255]),
                                              draw.choice([1] * 30 + [0, 2, 129, 255])]) + body
    if draw.random() < 0.05:
        data = data[:draw.randrange(5)]
    digits = draw.choice([data.hex(), data.hex(), data.hex().upper(), data.hex(" ") if draw.random() < 0.1 else data.hex()])
    if draw.random() < 0.1:
        digits = draw.choice([digits[:-1], digits + "0", "0x" + digits, digits + " ", digits + "\0",
                              byte_changed(draw, digits or "0").replace("\n", "g"), digits + "gg"])
    return draw.choice(["ero:"] * 20 + ["ERO:", "ero", " ero:", "ero::", "ero: "]) + digits


def object_script(draw):
    """A database, and requests each of whose hops is a changed object."""
    rows = batch_rows(draw, 1, {})
    return stream_of([*rows, *(ask_row(draw, name, changed_object(draw)) for name in range(8))])
