"""Rows of any bytes on all streams of `routed serve` at once."""
import os

from program.serving import AT
from reference import changes
from reference.formats import Network, Refused, records, row
from reference.runs import batch_text, ended, solve

STREAMS, STREAM_CLIENTS = 30, 6  # runs over streams of any bytes, and the clients of each


def published(rows):
    """The networks from version 0 on that the updates publish, and the journal."""
    networks, changed, journal = [Network()], [], ""
    for fields in records(rows):
        try:
            kind, content = row(fields)
            if kind == "end":
                some, changed = changed, []
                networks.append(ended(networks[-1], len(networks) - 1, some, content))
                journal += batch_text(content["number"], some)
            elif kind != "ask":
                changed.append((kind, content))
        except Refused:
            pass
    return networks, journal


def client_lines(networks, rows, found):
    """The lines of a client with these rows, each at the version that the found one names where that may be."""
    named, version, lines = iter(AT.match(line) for line in found if line.startswith("ask ")), 0, []
    for place, fields in enumerate(records(rows), 1):
        try:
            kind, content = row(fields)
            if kind != "ask":
                raise Refused("kind")
            at = next(named, None)
            version = max(version, min(int(at[1]), len(networks) - 1) if at else 0)
            lines.append(networks[version].answer(version, content))
        except Refused as words:
            lines.append(f"row {place} refused: {words}")
    return lines


def drawn_rows(draw):
    """Rows of a client: mostly requests with some bytes changed, also whole scripts, and bytes of any kind."""
    kind = draw.randrange(8)
    if kind == 0:
        return "".join(chr(draw.choice([10, 10, 13, 34, 44, draw.randrange(256)])) for _ in range(draw.randrange(300)))
    return changes.changed(draw, changes.script(draw) if kind < 4 else changes.requests(draw))[0]


def fit(rows):
    """The rows of a client that are whole before a quotation mark."""
    before, mark, _ = rows.partition('"')
    return before[:max(before.rfind("\n"), before.rfind("\r")) + 1] if mark else rows


def streams(program, checks, room, draw):
    """Rows of any bytes on all streams at once: lines, journal and status are those of the formats."""
    refused = 0
    for run in range(STREAMS):
        updates = changes.changed(draw, changes.script(draw))[0]
        given, journal = [drawn_rows(draw) for _ in range(STREAM_CLIENTS)], os.path.join(room, f"journal{run}")
        words, outs, ends = ["serve", "--explain", "--journal", journal], [], ""
        for number, rows in enumerate(given, 1):
            name = os.path.join(room, f"{run}.{number}")
            with open(name, "wb") as file:
                file.write(rows.encode("latin-1"))
            outs.append(f"{name}.out")
            words += ["--client", f"{name}={name}.out"]
            ends += f"routed: client {number}: {name}: a quotation mark\n" if '"' in rows else ""
        status, out, errors = program.run(words, updates.encode("latin-1"))
        (own, lines), (networks, text) = solve(updates), published(updates)
        found = [open(name, encoding="latin-1").read().splitlines() for name in outs]
        wanted = [client_lines(networks, fit(rows), told) for rows, told in zip(given, found)]
        bad = any(line.startswith("row ") for told in wanted for line in told)
        checks.same(f"clients of any bytes {run}", found, wanted)
        checks.same(f"updates of any bytes {run}", (status, out.decode("latin-1").splitlines(), errors.decode()),
                    (2 if bad else own, lines, ends))
        checks.same(f"the journal of any bytes {run}", open(journal, encoding="latin-1").read(), text)
        refused += bad + own
    checks.true("rows of any bytes are refused", refused > STREAMS, refused)
