"""What `routed book` writes, from the formats' own words (docs/run/FORMATS.md), over tests/reference/runs.py.

Small and slow on purpose; nothing in it is taken from the program.
"""
import collections
import copy
import functools
import math
import re

from reference import formats, runs
from reference.formats import Network, Refused, address_text
from reference.runs import MOST_ROWS, MOST_VERSIONS

PRIORITIES = range(8)  # 0 is the most important
NOTHING = [0] * len(PRIORITIES)
SETUP = 7  # the priority at which a place row is asked
MOST_PLACEMENTS = 65_536
MOST_PLACED_LINKS = 2_048
MOST_ROUTES_LINKS = 1_048_576
MOST_PLACING_VERSIONS = 900_000  # from this version on only base batches are accepted
CHANGES = ("put", "drop", "node")
STOPPED = ("end", "place", "release", "held", "offer")  # rows that are refused once a write to the file of --keep has failed


# ---- rows


def place(fields):
    """The fields of an ask row, with the holding priority in the place of the setup priority."""
    asked = formats.ask(fields)
    return {**asked, "setup": SETUP, "hold": asked["setup"]}


def held(fields):
    """The fields of a place row, and the route."""
    request = place(fields[:10])
    return {"id": request["id"], "request": request, "route": route(fields[10], request["from"], request["to"])}


def route(field, head, tail):
    """Links from the head-end to the tail-end. Each is 16 hexadecimal digits: its local address, and then the router that it leads to."""
    if not re.fullmatch("(?:[0-9A-Fa-f]{16})+", field):
        raise Refused("route")
    links, router = [], head
    for local, to in re.findall("(.{8})(.{8})", field):
        links.append({"from": router, "local": int(local, 16), "to": int(to, 16)})
        router = links[-1]["to"]
    if router != tail:
        raise Refused("route")
    return tuple(links)


def named(fields):
    return {"id": formats.number(fields, 2, 64)}


def row(fields):
    """The kind of a row, and what it says: five kinds are those of `routed solve`."""
    kinds = {"place": (place, 10), "release": (named, 2), "held": (held, 11), "offer": (place, 10), "show": (named, 2),
             "left": (formats.drop, 3)}
    if fields[0] not in kinds:
        return formats.row(fields)
    read, count = kinds[fields[0]]
    if len(fields) != count:
        raise Refused("fields")
    return fields[0], read(fields)


# ---- what is counted


def key_of(link):
    return link["from"], link["local"]


def key_text(link):
    return f"{address_text(link['from'])},{address_text(link['local'])}"


# A request with its holding priority, and the links of its route. Those of a place row are as they were when it was placed. Of those of a
# held row no more is known than where each begins, its local address, and where it leads.
Placement = collections.namedtuple("Placement", "request route")


def counts_at(placement, priority):
    """Whether a placement counts at a priority: at its holding priority and at all less important ones."""
    return placement.request["hold"] <= priority


def counted(placements):
    """What is counted at each priority, by the key of a link. Where nothing is counted there is no key."""
    sums = {}
    for placement in placements:
        for link in placement.route:
            here = sums.setdefault(key_of(link), [0] * len(PRIORITIES))
            for priority in PRIORITIES:
                if counts_at(placement, priority):
                    here[priority] += placement.request["bandwidth"]
    return sums


@functools.cache
def figures(free, held):
    """The unreserved bandwidths that are left of a link: at each priority the least, over it and all more important ones, of what the link
    has there less what is counted there, never below 0."""
    left = [max(0, free[priority] - held[priority]) for priority in PRIORITIES]
    return [min(left[:priority + 1]) for priority in PRIORITIES]


def effective(base, placements):
    """The base with what these placements leave of its bandwidths."""
    sums = counted(placements)
    left = {key: {**link, "free": figures(tuple(link["free"]), tuple(sums.get(key_of(link), NOTHING)))} for key, link in base.links.items()}
    return Network(left, base.marks)


# ---- what a batch does to placements


def over(changes, placements):
    """A line for each link that is put with less than what is counted on it, and each priority at which it has less."""
    sums = counted(placements)
    for kind, change in changes:
        if kind == "put":
            for priority in PRIORITIES:
                if change["free"][priority] < sums.get(key_of(change), NOTHING)[priority]:
                    yield f"over {key_text(change)} {priority}"


def made_over(base, placements, more):
    """A line for each link of one more placement's route that the base has, and each priority at which the others count no more than it
    has, and together with this one they do."""
    sums = counted(placements), counted([*placements, more])
    for link in more.route:
        key = key_of(link)
        if key in base.links:
            before, after = (them.get(key, NOTHING) for them in sums)
            for priority in PRIORITIES:
                if before[priority] <= base.links[key]["free"][priority] < after[priority]:
                    yield f"over {key_text(link)} {priority}"


def lost(before, after, placements):
    """A line for each placement whose route the one base admits and the other doesn't: the least important ones first, then by id."""
    for placement in sorted(placements, key=lambda it: (-it.request["hold"], it.request["id"])):
        if admits(before, placement) and not admits(after, placement):
            yield f"lost {placement.request['id']}"


def admits(base, placement):
    """Whether the base has a walk with the keys of a placement's route, to the same routers, for its request with bandwidth 0."""
    request = {**placement.request, "bandwidth": 0}
    for count, old in enumerate(placement.route):
        link = base.links.get(key_of(old))
        if link is None or link["to"] != old["to"]:
            return False
        if not formats.admissible(base, link, request) or not formats.may_leave(base, link["from"], count):
            return False
    return True


# ---- the run


class Book:
    """The base, how many batches made it, how many of these, of placements, held ones too, and of releases there were, and the
    placements."""

    def __init__(self):
        self.base, self.batches, self.version, self.placements = Network(), 0, 0, []

    def others(self, name):
        return [it for it in self.placements if it.request["id"] != name]

    def ask(self, request):
        return effective(self.base, self.placements).answer(self.version, request)

    def end(self, changes, content):
        """The lines of an accepted end row. The first refusal that applies is raised, and then nothing changes."""
        if self.version == MOST_VERSIONS:
            raise Refused("exhausted")
        if content["number"] != self.batches + 1:
            raise Refused(f"expected {self.batches + 1}")
        if content["count"] != len(changes):
            raise Refused(f"counted {len(changes)}")
        after = self.base.after(changes)
        lines = [*over(changes, self.placements), *lost(self.base, after, self.placements)]
        self.base, self.batches, self.version = after, self.batches + 1, self.version + 1
        return [*lines, f"base {self.batches} v{self.version}"]

    def place(self, request):
        """The line of an answer. The book changes only if the answer is a route. The first refusal that applies is raised."""
        others = self.others(request["id"])
        if self.version >= MOST_PLACING_VERSIONS:
            raise Refused("exhausted")
        if len(others) == MOST_PLACEMENTS:
            raise Refused("full")
        outcome = effective(self.base, others).outcome(request)
        if not isinstance(outcome, str):
            if len({key_of(link) for link in outcome}) < len(outcome):
                raise Refused("twice")
            if len(outcome) > MOST_PLACED_LINKS:
                raise Refused("long")
            if sum(len(it.route) for it in others) + len(outcome) > MOST_ROUTES_LINKS:
                raise Refused("links")
            self.placements, self.version = [*others, Placement(request, outcome)], self.version + 1
        return f"place {request['id']} v{self.version} {formats.outcome_text(request, outcome)}"

    def offer(self, request):
        """The line of a place row on a copy of the book, with its own word and the book's version."""
        outcome = copy.copy(self).place(request).split(" ", 3)[3]
        return f"offer {request['id']} v{self.version} {outcome}"

    def restore(self, request, links):
        """The lines of a placement that comes with its route. The first refusal that applies is raised, and then nothing changes."""
        if self.version >= MOST_PLACING_VERSIONS:
            raise Refused("exhausted")
        if len(self.others(request["id"])) < len(self.placements):
            raise Refused("same-id")
        if len(self.placements) == MOST_PLACEMENTS:
            raise Refused("full")
        if len(links) > MOST_PLACED_LINKS:
            raise Refused("long")
        if len({key_of(link) for link in links}) < len(links):
            raise Refused("twice")
        if sum(len(it.route) for it in self.placements) + len(links) > MOST_ROUTES_LINKS:
            raise Refused("links")
        more = Placement(request, links)
        lines = list(made_over(self.base, self.placements, more))
        self.placements, self.version = [*self.placements, more], self.version + 1
        return [*lines, f"held {request['id']} v{self.version}"]

    def release(self, name):
        others = self.others(name)
        if self.version >= MOST_PLACING_VERSIONS:
            raise Refused("exhausted")
        if len(others) == len(self.placements):
            raise Refused("absent")
        self.placements, self.version = others, self.version + 1
        return f"released {name} v{self.version}"

    def show(self, name):
        found = [it for it in self.placements if it.request["id"] == name]
        if not found:
            raise Refused("absent")
        request, links = found[0]
        return (f"show {name} v{self.version} from={address_text(request['from'])} to={address_text(request['to'])} "
                f"hold={request['hold']} bandwidth={request['bandwidth']} links={len(links)} {' '.join(map(key_text, links))}")

    def left(self, asked):
        """The figures of a link: in the base, what is counted on it, and in the effective database."""
        key = key_of(asked)
        if key not in self.base.links:
            raise Refused("absent")
        told = {"base": self.base.links[key]["free"], "counted": counted(self.placements).get(key, NOTHING),
                "left": effective(self.base, self.placements).links[key]["free"]}
        texts = [f"{name}={','.join(map(str, numbers))}" for name, numbers in told.items()]
        return f"left {key_text(asked)} v{self.version} {' '.join(texts)}"


class Fault(Refused):
    """A file doesn't take the whole text of a row. The row is refused, and after it each row that could change the book."""


# A row that was read: the book after it, the open changes, its lines, what is written to `--keep` for it, and whether it is refused.
Step = collections.namedtuple("Step", "book changes lines kept is_refused")


def walked(rows, room=math.inf, book=None, publish=lambda before, after, changes: None, lacking=None):
    """A step for each row, however many there are, of a new book or of one that goes on. `room` is how many bytes the file of `--keep`
    takes. Where a row is kept, `publish` gets the book before it and after it, and the changes of its batch, and may raise Fault, too.
    `lacking` has the numbers of rows that are refused by `memory`, each with the moment: "read", before its fields are read; "taken",
    before anything is written; or "told", when a write has failed, and the line that says so is made."""
    book, changes, is_stopped, lacking = book or Book(), [], False, lacking or {}
    for at, fields in enumerate(formats.records(rows), 1):
        subject, before, lines, text, kept, is_refused = f"row {at}", copy.copy(book), [], ",".join(fields) + "\n", "", False
        open_ones = []
        try:
            kind, content = row(fields)
            if kind == "end":
                subject, open_ones, changes = f"batch {content['number']}", changes, []
            elif kind not in CHANGES:
                subject = f"{kind} {key_text(content) if kind == 'left' else content['id']}"
            if kind not in STOPPED or (kind, lacking.get(at)) == ("held", "read"):
                subject = f"row {at}" if at in lacking else subject
            if lacking.get(at) in ("read", "taken"):
                raise Refused("memory")
            if is_stopped and kind in STOPPED:
                raise Refused("stopped")
            if kind in CHANGES:
                changes.append((kind, content))
            elif kind == "end":
                lines, text = book.end(open_ones, content), runs.batch_text(content["number"], open_ones)
            elif kind == "held":
                lines = book.restore(content["request"], content["route"])
            elif kind in ("release", "show"):
                lines = [getattr(book, kind)(content["id"])]
            else:
                lines = [getattr(book, kind)(content)]
            if book.version > before.version:
                if len(text) > room:
                    kept = text[:room]
                    raise Fault(f"keep {room}")
                kept, room = text, room - len(text)
                publish(before, book, open_ones)
        except Refused as words:
            if isinstance(words, Fault):
                book, is_stopped = before, True
            words = "memory" if at in lacking else words
            lines, is_refused = [f"{subject} refused: {words}"], True
        yield Step(book, changes, lines, kept, is_refused)


def ended(walk, most=math.inf):
    """The status of a run, its steps, and the line that comes after them, if one does. More rows than the most aren't read."""
    found, changes, is_refused = [], [], False
    for step in walk:
        if len(found) == most:
            return 2, found, ["too many rows"]
        found.append(step)
        changes, is_refused = step.changes, is_refused or step.is_refused
    return 2 if is_refused or changes else 0, found, [f"unended {len(changes)}"] if changes else []


def steps(rows, room=math.inf):
    """The status of a run, and for each row its lines and what is written to `--keep` for it; the last line comes after them."""
    status, found, last = ended(walked(rows, room), MOST_ROWS)
    return status, [*((step.lines, step.kept) for step in found), *([(last, "")] if last else [])]


def book(rows):
    """The status of a run and its lines."""
    status, found = steps(rows)
    return status, [line for lines, _ in found for line in lines]
