"""What runs of `routed` write, from the formats' own words (docs/run/FORMATS.md): all that the proved program is compared with.

Each gives its status and its lines. Small and slow on purpose; nothing in it is taken from the program.
"""
import re

from reference import excepts, pairs
from reference.formats import DECIMAL, MOST_CHANGES, Network, Refused, address_text, records, row

MOST_ROWS = 1_000_000  # of a stream
MOST_VERSIONS = 1_000_000
QUESTIONS = {"except": excepts, "pair": pairs}  # by the word of their rows; read only where their kind is asked for


def row_or_question(fields, kinds):
    """The kind of a row, and what it says. Of questions those of the given kinds are read."""
    if fields[0] in kinds:
        return fields[0], QUESTIONS[fields[0]].question(fields)
    return row(fields)


def solve(rows, kinds=()):
    network, version, changes, lines, refused = Network(), 0, [], [], False
    for place, fields in enumerate(records(rows), 1):
        if place > MOST_ROWS:
            return 2, [*lines, "too many rows"]
        try:
            kind, content = row_or_question(fields, kinds)
        except Refused as words:
            lines.append(f"row {place} refused: {words}")
            refused = True
            continue
        if kind == "ask":
            lines.append(network.answer(version, content))
        elif kind in kinds:
            lines.append(QUESTIONS[kind].answer(network, version, content))
        elif kind != "end":
            changes.append((kind, content))
        else:
            try:
                network = ended(network, version, changes, content)
                version += 1
                lines.append(f"version {version}")
            except Refused as words:
                lines.append(f"batch {content['number']} refused: {words}")
                refused = True
            changes = []
    if changes:
        lines.append(f"unended {len(changes)}")
    return 2 if refused or changes else 0, lines


def ended(network, version, changes, content):
    """The network after an end row."""
    if version == MOST_VERSIONS:
        raise Refused("exhausted")
    if content["number"] != version + 1:
        raise Refused(f"expected {version + 1}")
    if content["count"] != len(changes):
        raise Refused(f"counted {len(changes)}")
    return network.after(changes)


def journal_rows(journal):
    """The rows of a journal, None for a refused one."""
    rows = []
    for place, fields in enumerate(records(journal), 1):
        if place > MOST_ROWS:
            raise Refused("too many rows")
        try:
            rows.append(row(fields))
        except Refused:
            rows.append(None)
    return rows


def whole_batches(journal, accept_torn=False):
    """The longest front of a journal's rows that is whole batches numbered from 1. It is torn where a row stands behind that."""
    rows, batches, changes, front = journal_rows(journal), [], [], 0
    for place, found in enumerate(rows, 1):
        if found and found[0] in ("put", "drop", "node"):
            changes.append(found)
        elif found == ("end", {"number": len(batches) + 1, "count": len(changes)}):
            batches.append(changes)
            changes, front = [], place
        else:
            break
    if front < len(rows) and not accept_torn:
        raise Refused(f"journal torn after {len(batches)}")
    return batches


def requests_of(stream, kinds=()):
    """The requests of a stream, up to its first bad row. That of a question has its kind and what it says, too."""
    requests = []
    for place, fields in enumerate(records(stream), 1):
        if place > MOST_ROWS:
            raise Refused("too many rows")
        try:
            kind, content = row_or_question(fields, kinds)
            if kind in kinds:
                content = {**content[0], "question": (kind, content)}
            elif kind != "ask":
                raise Refused("kind")
        except Refused as words:
            raise Refused(f"request row {place} refused: {words}")
        requests.append(content)
    return requests


def publish(batches):
    """The networks from version 0 on, and the line of the first batch that doesn't fit, if any does not."""
    networks = [Network()]
    for place, changes in enumerate(batches, 1):
        try:
            networks.append(networks[-1].after(changes))
        except Refused as words:
            return networks, f"batch {place} refused: {words}"
    return networks, None


def batch(journal, requests, accept_torn=False):
    try:
        batches, asked = whole_batches(journal, accept_torn), requests_of(requests)
    except Refused as line:
        return 2, [str(line)]
    networks, fault = publish(batches)
    last = len(networks) - 1
    versions = [f"version {version}" for version in range(1, last + 1)]
    if fault:
        return 2, [*versions, fault]
    return 0, [*versions, *(networks[last].answer(last, request) for request in asked)]


def live(updates, requests, named):
    """A run by one worker, and the journal that it writes.

    `named` has the version that each reply names. Any is right that is published and not below the one
    before; in place of another the nearest right one is taken, so that its reply differs."""
    try:
        batches, asked = whole_batches(updates), requests_of(requests)
    except Refused as line:
        return 2, [str(line)], ""
    networks, fault = publish(batches)
    last, version, replies = len(networks) - 1, 0, []
    for place, request in enumerate(asked):
        version = max(version, min(last, named[place] if place < len(named) else last))
        replies.append(networks[version].answer(version, request))
    journal = "".join(batch_text(place, changes) for place, changes in enumerate(batches[:last], 1))
    return 2 if fault else 0, [*replies, f"applied {last}", *([fault] if fault else [])], journal


def batch_text(place, changes):
    """The lines of a batch in a journal."""
    rows = []
    for kind, change in changes:
        if kind == "node":
            fields = [kind, address_text(change["router"]), int(change["transit"])]
        else:
            fields = [kind, address_text(change["from"]), address_text(change["local"])]
        if kind == "put":
            fields += [address_text(change["to"]), address_text(change["remote"]), change["metric"], f"0x{change['group']:08x}",
                       *change["free"]]
        rows.append(",".join(map(str, fields)))
    return "".join(f"{line}\n" for line in [*rows, f"end,{place},{len(changes)}"])


def snapshot_of(network):
    """A put of each link, in order of its key, and then a change for each mark, rising, in full batches but for the last."""
    rows = [("put", network.links[key]) for key in sorted(network.links)]
    rows += [("node", {"router": router, "transit": False}) for router in sorted(network.marks)]
    cuts = [rows[first:first + MOST_CHANGES] for first in range(0, len(rows), MOST_CHANGES)]
    return "".join(batch_text(place, cut) for place, cut in enumerate(cuts, 1))


# ---- the judgement of reply lines


def audit(journal, requests, replies, kinds=()):
    """The journal, its batches, the requests, their ids and the replies are taken in this order. Where no kinds of questions are given, no
    line of a question is read."""
    try:
        networks, fault = publish(whole_batches(journal))
        if fault:
            raise Refused(fault)
        asked = {}
        for place, request in enumerate(requests_of(requests, kinds), 1):
            if request["id"] in asked:
                raise Refused(f"request row {place} refused: same-id")
            asked[request["id"]] = request
        lines = replies.split("\n")
        if lines[-1] == "":
            lines.pop()
        if len(lines) > MOST_ROWS:
            raise Refused("too many rows")
    except Refused as line:
        return 2, [str(line)]
    good, faults, named = 0, [], set()
    for place, line in enumerate(lines, 1):
        if line.split(" ")[0] in ("version", "applied", "batch"):
            continue
        try:
            if not kinds and line.partition(" ")[0] in QUESTIONS:
                raise Refused("unread")
            judge(line, networks, asked, named)
            good += 1
        except Refused as words:
            faults.append(f"line {place} {words}")
    faults += [f"request {name} unanswered" for name in asked if name not in named]
    return 2 if faults else 0, [*faults, f"good={good} faults={len(faults)}"]


def judge(line, networks, asked, named):
    """Refuses a reply line by the first fault that applies. `named` are the ids of the lines before it, and gets its id."""
    found = re.match(rf"(?:ask|except|pair) ({DECIMAL}) v({DECIMAL}) ", line)
    if not found or len(found[1]) > 20 or int(found[1]) >= 2 ** 64 or len(found[2]) > 10 or int(found[2]) >= 2 ** 32:
        raise Refused("unread")
    name, version, doubled = int(found[1]), int(found[2]), int(found[1]) in named
    named.add(name)
    if name not in asked:
        raise Refused("foreign")
    if doubled:
        raise Refused("doubled")
    if version >= len(networks):
        raise Refused("no-version")
    kind, question = asked[name].get("question", (None, None))
    if kind and line != QUESTIONS[kind].answer(networks[version], version, question):
        raise Refused("altered")
    if not kind and line != networks[version].answer(version, asked[name]):
        raise Refused("altered")
