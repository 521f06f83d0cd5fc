"""Rows, hops and the database, from the formats' own words (docs/run/FORMATS.md). tests/reference/runs.py has the runs.

Small and slow on purpose; nothing in it is taken from the program. Streams are text whose characters are
bytes (latin-1). What isn't accepted is raised as Refused, whose text is the words of the refusal.
"""
import heapq
import re

MOST_CHANGES = 4_096  # of a batch
MOST_LINKS = 16_384  # of a database
MOST_ROUTERS = 1_024
MOST_MARKS = 1_024  # routers without transit
MOST_HOPS = 7

OCTET = "(?:25[0-5]|2[0-4][0-9]|1[0-9][0-9]|[1-9]?[0-9])"
ADDRESS = rf"{OCTET}(?:\.{OCTET}){{3}}"
DECIMAL = "0|[1-9][0-9]*"
QUOTED = '"([^"]*(?:""[^"]*)*)(?:"|\\Z)'
FIELD = re.compile(rf"(?:{QUOTED})?([^,\r\n]*)")
BYTE_ORDER_MARK = "\xef\xbb\xbf"


class Refused(Exception):
    """Its text is the words of the refusal."""


# ---- rows


def records(stream):
    """The rows of a stream, each a list of fields.

    A row ends at a line feed or a carriage return, and an empty line is no row."""
    at = len(BYTE_ORDER_MARK) if stream.startswith(BYTE_ORDER_MARK) else 0
    while at < len(stream):
        if stream[at] in "\r\n":
            at += 1
            continue
        fields = []
        while True:
            field, at = field_from(stream, at)
            fields.append(field)
            if stream[at:at + 1] != ",":
                break
            at += 1
        yield fields
        at += 1


def field_from(stream, at):
    """The field that begins there, and where it ends.

    A quote at its front opens a part in quotes, in which commas and line ends are part of the field and
    two quotes are one. It runs to the next single quote, or to the end of the stream. What stands behind
    it belongs to the field as it is, as does a quote anywhere else."""
    found = FIELD.match(stream, at)
    return (found[1] or "").replace('""', '"') + found[2], found.end()


def number(fields, field, bits):
    """Decimal digits without leading zeros, below 2^bits."""
    digits = fields[field - 1]
    if not re.fullmatch(DECIMAL, digits) or len(digits) > 20 or int(digits) >= 2 ** bits:
        raise Refused(f"number {field}")
    return int(digits)


def priority(fields, field):
    setup = number(fields, field, 32)
    if setup > 7:
        raise Refused("priority")
    return setup


def mask(fields, field):
    if not re.fullmatch("0x[0-9A-Fa-f]{1,8}", fields[field - 1]):
        raise Refused(f"mask {field}")
    return int(fields[field - 1], 16)


def address(fields, field):
    if not re.fullmatch(ADDRESS, fields[field - 1]):
        raise Refused(f"address {field}")
    return address_number(fields[field - 1])


def address_number(text):
    a, b, c, d = map(int, text.split("."))
    return ((a * 256 + b) * 256 + c) * 256 + d


def address_text(value):
    return ".".join(str(value >> shift & 255) for shift in (24, 16, 8, 0))


def put(fields):
    link = {
        "from": address(fields, 2), "local": address(fields, 3),
        "to": address(fields, 4), "remote": address(fields, 5),
        "metric": number(fields, 6, 32), "group": mask(fields, 7),
        "free": [number(fields, field, 64) for field in range(8, 16)],
    }
    if link["from"] == link["to"]:
        raise Refused("self-link")
    return link


def drop(fields):
    return {"from": address(fields, 2), "local": address(fields, 3)}


def node(fields):
    return {"router": address(fields, 2), "transit": number(fields, 3, 1) == 1}


def end(fields):
    return {"number": number(fields, 2, 32), "count": number(fields, 3, 32)}


def ask(fields):
    request = {
        "id": number(fields, 2, 64), "from": address(fields, 3), "to": address(fields, 4),
        "setup": priority(fields, 5), "bandwidth": number(fields, 6, 64),
        "exclude_any": mask(fields, 7), "include_any": mask(fields, 8), "include_all": mask(fields, 9),
        "hops": hops(fields[9]),
    }
    if request["from"] == request["to"]:
        raise Refused("same-ends")
    return request


def row(fields):
    """The kind of a row, and what it says. Its fields are read from left to right, and the first bad one is named."""
    kinds = {"put": (put, 15), "drop": (drop, 3), "node": (node, 3), "end": (end, 3), "ask": (ask, 10)}
    if fields[0] not in kinds:
        raise Refused("kind")
    read, count = kinds[fields[0]]
    if len(fields) != count:
        raise Refused("fields")
    return fields[0], read(fields)


# ---- hops: each an address, the length of its prefix, and whether it is loose


def hops(field):
    if field == "":
        return []
    if not field.startswith("ero:"):
        return hop_list(field)
    digits = field[4:]
    if not re.fullmatch("(?:[0-9A-Fa-f]{2})*", digits):
        raise Refused("hops hex")
    return hops_of_object(bytes.fromhex(digits))


def hop_list(text):
    """Each space cuts, so two in a row have an empty part between them, which is no hop."""
    parts = text.split(" ")
    if len(parts) > MOST_HOPS:
        raise Refused("hops count")
    return [hop(part, place) for place, part in enumerate(parts, 1)]


def hop(text, place):
    found = re.fullmatch(rf"({ADDRESS})/({DECIMAL})([sl])", text)
    if not found or len(found[2]) > 2 or int(found[2]) > 32:
        raise Refused(f"hops {place}")
    return address_number(found[1]), int(found[2]), found[3] == "l"


def hops_of_object(data):
    """The hops of a route object: a header, and subobjects of 8 bytes."""
    if len(data) < 4:
        raise Refused("hops ero short")
    if int.from_bytes(data[:2], "big") != len(data) or len(data) % 4 != 0:
        raise Refused("hops ero length")
    if data[2] != 20 or data[3] != 1:
        raise Refused("hops ero class")
    if len(data) == 4:
        raise Refused("hops ero empty")
    found, at = [], 4
    while at < len(data):
        if len(found) == MOST_HOPS:
            raise Refused("hops ero count")
        found.append(hop_of_subobject(data[at:at + 8]))
        at += 8
    return found


def hop_of_subobject(data):
    """The bit L above the type, the length, the address, the length of the prefix, and padding."""
    if data[0] & 127 != 1:
        raise Refused("hops ero unsupported")
    if len(data) < 8 or data[1] != 8:
        raise Refused("hops ero sublength")
    if data[6] > 32:
        raise Refused("hops ero prefix-length")
    return int.from_bytes(data[2:6], "big"), data[6], data[0] >= 128


def covers(prefix, bits, value):
    return prefix >> (32 - bits) == value >> (32 - bits)


# ---- the database


def key_of(kind, change):
    """What a change is about: a link, by the router and the local address, or a router alone, whose mark is apart from its links."""
    return (change["router"],) if kind == "node" else (change["from"], change["local"])


class Network:
    """Links by their keys, the router and the local address, and the marks: the addresses of routers without transit."""

    def __init__(self, links=(), marks=()):
        self.links = dict(links)
        self.marks = set(marks)

    def after(self, changes):
        """The network after a batch, a list of put, drop and node rows. The first refusal that applies is raised."""
        keys = [key_of(*change) for change in changes]
        if len(keys) > MOST_CHANGES:
            raise Refused("long")
        seen = set()
        for place, key in enumerate(keys, 1):
            if key in seen:
                raise Refused(f"duplicate {place}")
            seen.add(key)
        for place, key in enumerate(keys, 1):
            if changes[place - 1][0] == "drop" and key not in self.links:
                raise Refused(f"absent {place}")
        result = Network(self.links, self.marks)
        for key, (kind, change) in zip(keys, changes):
            if kind == "node":
                result.mark(change["router"], change["transit"])
            elif kind == "put":
                result.links[key] = change
            else:
                del result.links[key]
        if len(result.links) > MOST_LINKS:
            raise Refused("full")
        if len(result.routers()) > MOST_ROUTERS:
            raise Refused("routers")
        if len(result.marks) > MOST_MARKS:
            raise Refused("marks")
        return result

    def mark(self, router, transit):
        """A router may have transit again that was never marked, and one be marked that isn't there."""
        if transit:
            self.marks.discard(router)
        else:
            self.marks.add(router)

    def routers(self):
        return {router for link in self.links.values() for router in (link["from"], link["to"])}

    def owners(self, prefix, bits):
        """The routers with an address that the prefix covers: their own, or the local one of any link from them."""
        own = {router for router in self.routers() if covers(prefix, bits, router)}
        return own | {link["from"] for link in self.links.values() if covers(prefix, bits, link["local"])}

    def least(self, request):
        """The links of the least route, None where there is none.

        Walks are kept whole, and ordered by cost, then by the number of links, then by their local
        addresses as numbers from the first on. In leg i a walk is on its way to hop i; the last leg ends
        at the tail-end. From a marked router only a walk goes on that begins there and has no link yet. Such
        walks come out of the heap before all others, so a state that may not be left is never in the way of one that may."""
        targets = [{request["from"]}, *(self.owners(prefix, bits) for prefix, bits, _ in request["hops"]), {request["to"]}]
        loose = [True, *(is_loose for _, _, is_loose in request["hops"]), True]
        last = len(targets) - 1
        out = {}
        for link in self.links.values():
            if admissible(self, link, request):
                out.setdefault(link["from"], []).append(link)
        heap, settled, drawn = [(0, 0, 1, (), 0, request["from"], ())], set(), 0
        while heap:
            cost, count, leg, locals_, _, router, walk = heapq.heappop(heap)
            if (leg, router) in settled:
                continue
            settled.add((leg, router))
            if leg == last and router == request["to"]:
                return walk
            if leg < last and router in targets[leg]:
                drawn += 1
                heapq.heappush(heap, (cost, count, leg + 1, locals_, drawn, router, walk))
            for link in out.get(router, []) if may_leave(self, router, count) else []:
                to = link["to"]
                if loose[leg] or to in targets[leg - 1] or to in targets[leg]:
                    drawn += 1
                    heapq.heappush(heap, (cost + link["metric"], count + 1, leg, locals_ + (link["local"],), drawn, to, walk + (link,)))
        return None

    def outcome(self, request):
        """The links of the least route, or the word that says why there is none."""
        routers = self.routers()
        if request["from"] not in routers:
            return "unknown-from"
        if request["to"] not in routers:
            return "unknown-to"
        walk = self.least(request)
        return "none" if walk is None else walk

    def answer(self, version, request):
        """The reply line, without its line feed."""
        return f"ask {request['id']} v{version} {outcome_text(request, self.outcome(request))}"

    def change(self, fields):
        """A put, drop or node row takes effect at once."""
        after = self.after([row(fields)])
        self.links, self.marks = after.links, after.marks

    def reply(self, version, text):
        """The reply line to the text of an ask row."""
        return self.answer(version, row(next(records(text)))[1])


def outcome_text(request, outcome):
    """What a reply line says of an outcome."""
    if isinstance(outcome, str):
        return outcome
    stops = [request["from"], *(link["to"] for link in outcome)]
    again = "no" if len(set(stops)) == len(stops) else "yes"
    cost = sum(link["metric"] for link in outcome)
    return f"route cost={cost} hops={len(outcome)} again={again} ero={object_of(outcome)}"


def may_leave(network, router, count):
    """Whether a walk of so many links may go on from the router: no route passes through a marked one."""
    return count == 0 or router not in network.marks


def admissible(network, link, request):
    """The request accepts the link, and the database has its reverse, whatever that one's attributes."""
    return accepts(link, request) and has_reverse(network, link)


def has_reverse(network, link):
    """Whether there is the other direction of the circuit: from where the link ends, between the same two interfaces."""
    back = network.links.get((link["to"], link["remote"]))
    return back is not None and (back["to"], back["remote"]) == (link["from"], link["local"])


def accepts(link, request):
    """The three affinity tests, and the bandwidth at the setup priority."""
    if link["group"] & request["exclude_any"]:
        return False
    if request["include_any"] and not link["group"] & request["include_any"]:
        return False
    if link["group"] & request["include_all"] != request["include_all"]:
        return False
    return link["free"][request["setup"]] >= request["bandwidth"]


def object_of(walk):
    """The object of a route: a strict subobject of prefix length 32 for each link, with its remote address."""
    parts = b"".join(bytes([1, 8, *link["remote"].to_bytes(4, "big"), 32, 0]) for link in walk)
    return ((4 + len(parts)).to_bytes(2, "big") + bytes([20, 1]) + parts).hex()
