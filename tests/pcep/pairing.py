"""The whole front beside the built program: two requests that an SVEC binds, as a `pair` row."""
import collections
import os
import random
import struct
from typing import NamedTuple

from pcep.beside import Client, Run, opened, wait
from pcep.delegated import changes
from pcep.excluded import NEAR, xro
from pcep.excluding import judged, version_of
from pcep.paired import ALONE, ASKED, CIRCUITS, KINDS, LINK, NORTH, REFUSED, SECOND, SOUTH, SRLG, bound, ends, objective, shares
from pcep.paired import svec, two, words_of
from pcep.played import bandwidth, lspa, request, rows, told
from reference import formats, pairs

from routed.pcep import wire

ROUNDS, EACH = 40, 8  # versions that are drawn, and pairs at each


def answers(client, data, count):
    """What a PCC is told in so many messages, by the ids of its requests."""
    client.socket.sendall(data)
    return heard(client, count)


def heard(client, count):
    found = {}
    for _ in range(count):
        kind, objects = client.raw()
        about = next(struct.unpack("!4xI", one.body[:8])[0] for one in objects if one.kind == wire.O_RP)
        found[about] = told(kind, objects)
    return found


def pairing(program, checks, room):
    """Each form of an SVEC that is a pair's, by both kinds, beside other requests. A server without the option refuses them."""
    with Run(program.path, room, listen=["--except", "--pairs"]) as run:
        run.publish(*rows(CIRCUITS))
        client = Client(run.port, "127.0.18.1")
        client.open()
        wait(lambda: client.ask() == NORTH)
        for name, *wanted, make in ASKED:
            for (kind, flag), words in zip(KINDS.items(), wanted):
                words = {number: text.partition(" I ")[0] for number, text in words.items()}
                checks.same(f"beside the program: a pair by {kind}: {name}", answers(client, make(flag), len(words)), words)
        checks.same("beside the program: SRLG diverse", answers(client, two(front=[svec(7, 8, flags=LINK | SRLG)]), 2), REFUSED)
        checks.same("beside the program: an XRO", client.ask(request(xro(NEAR))), SOUTH)
        run.publish("drop,10.0.0.1,10.1.3.1")
        wait(lambda: run.figures()["version"] == 2)
        checks.same("beside the program: once a circuit is gone", answers(client, two(), 2), {7: "NO-PATH 0", 8: "NO-PATH 0"})
        counts = run.figures()
        checks.same("beside the program: a figure of refused requests", counts['errors_total{error="4/1"}'], 2)
        checks.same("beside the program: files of --replies", sorted(os.listdir(run.places["replies"])),
                    [f"1.{front}{kind}" for front in ("except_", "pair_", "") for kind in ("replies", "requests")])
        client.close()
        checks.same("pairs: SIGTERM", run.end(), 0)
        judged(program, checks, run, ("ask", "except", "pair"))
    inner = os.path.join(room, "without")
    os.mkdir(inner)
    with Run(program.path, inner) as run:
        run.publish(*rows(CIRCUITS))
        client = Client(run.port, "127.0.18.2")
        client.open()
        wait(lambda: client.ask() == NORTH)
        checks.same("a server without --pairs: an SVEC", answers(client, two(), 2), REFUSED)
        checks.same("a server without --pairs: an SVEC without P", answers(client, two(front=[svec(7, 8, must=False)]), 2), ALONE)
        checks.same("a server without --pairs: beside another request",
                    answers(client, bound(([], {}), ([], SECOND), ([], {"number": 9}), front=[svec(7, 8)]), 3), REFUSED | {9: NORTH})
        client.close()
        run.end()
        checks.same("a server without --pairs: files of --replies", sorted(os.listdir(run.places["replies"])), ["1.replies", "1.requests"])


class Drawn(NamedTuple):
    """Two requests that are alike: their ids, their ends, their row without its word and id, and the bytes of the PCReq."""

    ids: tuple
    here: int
    there: int
    kind: str
    constraints: str
    data: bytes

    @classmethod
    def drawn(cls, draw, number):
        here, there = draw.sample(range(1, 9), 2)
        kind, setup, value = draw.choice([*KINDS]), draw.randrange(8), draw.choice((0, 0, 500, 1000))
        masks = [draw.choice((0, 0, 0, 0, 1 << draw.randrange(3))) for _ in range(3)]
        objects = [lspa(*masks, setup), bandwidth(value)]
        ids = number, number + 1
        front = [svec(*draw.sample(ids, 2), flags=KINDS[kind]), *draw.choice(([], [objective(6)]))]
        data = bound(*((objects, {"number": each} | ends(here, there)) for each in ids), front=front)
        texts = ",".join(f"0x{mask:08x}" for mask in masks)
        return cls(ids, here, there, kind, f"10.0.0.{here},10.0.0.{there},{setup},{value},{texts},{kind}", data)


def drawn_ways(program, checks, room):
    """Drawn pairs while the network changes. Each is the reference's at the version of its line, and its ways share nothing there."""
    draw, network, sent, found = random.Random(9181), formats.Network(), [], {}
    with Run(program.path, room, listen=["--pairs"]) as run:
        client = opened(run, "127.0.19.1")
        for _ in range(ROUNDS):
            batch = [row for _ in range(4) for row in changes(draw, network)]
            batch = [*{tuple(row.split(",")[1:2 + (row[0] != "n")]): row for row in batch}.values()]
            some = [Drawn.drawn(draw, 2 * (len(sent) + at) + 1) for at in range(EACH)]
            sent += some
            client.socket.sendall(b"".join(one.data for one in some[:EACH // 2]))
            run.publish(*batch)
            network = network.after([formats.row(row.split(",")) for row in batch])
            client.socket.sendall(b"".join(one.data for one in some[EACH // 2:]))
            found |= heard(client, 2 * EACH)
        client.close()
        checks.same("drawn pairs beside the program: SIGTERM", run.end(), 0)
        networks = judged(program, checks, run, ("pair",))
        lines = [*zip(run.kept(1, "pair_requests").splitlines(), run.kept(1, "pair_replies").splitlines())]
    checks.same("drawn pairs beside the program: one row for each", len(lines), len(sent))
    by_ids = {one.ids[0]: one for one in sent}
    faults, outcomes, versions = [], collections.Counter(), {version_of(line) for _, line in lines}
    for one, (row, line) in zip([by_ids[number] for number in found if number in by_ids], lines):
        network, words = networks[version_of(line)], [found[number] for number in one.ids]
        outcome = pairs.outcome(network, pairs.question(row.split(","))[0], one.kind)
        outcomes[one.kind, outcome.partition(" ")[0] if isinstance(outcome, str) else "pair"] += 1
        is_bad = words[0].startswith("PCRep") and shares(network, one.here, one.there, one.kind, *words)
        if row.split(",", 2)[2] != one.constraints or words != words_of(outcome) or is_bad:
            faults.append((row, line, one.constraints, words, is_bad))
    checks.same("drawn pairs beside the program: each is the reference's, and its ways share nothing", faults[:2], [])
    fewest = min(outcomes[kind, word] for kind in KINDS for word in ("pair", "none", "each"))
    checks.true("drawn pairs beside the program: many versions and outcomes", len(versions) > ROUNDS / 2 and fewest > 5, outcomes)
    print(f"pcep: {len(sent)} pairs drawn, {dict(outcomes)}, at {len(versions)} versions")
