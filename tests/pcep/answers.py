"""Answers of the whole front: the longest routes, and drawn requests in networks that change.

They are judged by tests/reference/formats.py."""
import random
import re
import socket
import struct

from pcep.beside import Client, Run, opened, wait
from pcep.delegated import changes
from pcep.played import bandwidth, hop, ip, lspa, metric, request, told
from reference import formats

from routed.pcep import wire
from routed.pcep.wire import pack

ENDS = 1024  # routers in a row


def line():
    """A row of 1,024 routers; the links to the right have 10.2, those to the left 10.3."""
    def at(top, number):
        return f"10.{top}.{number >> 8}.{number & 255}"

    free = ",".join(["1000"] * 8)
    for number in range(ENDS - 1):
        yield f"put,{at(1, number)},{at(2, number)},{at(1, number + 1)},{at(3, number)},1,0x0,{free}"
        yield f"put,{at(1, number + 1)},{at(3, number)},{at(1, number)},{at(2, number)},1,0x0,{free}"


def long(program, checks, room):
    """The longest routes: 1,023 links from end to end, and 8,183 from end to end seven times over and back, 65,464 bytes of an ERO."""
    first, last, second = socket.inet_aton("10.1.0.0"), socket.inet_aton("10.1.3.255"), socket.inet_aton("10.1.0.1")
    right = [f"10.3.{number >> 8}.{number & 255}" for number in range(ENDS - 1)]
    left = [f"10.2.{number >> 8}.{number & 255}" for number in reversed(range(ENDS - 1))]
    over = (right + left) * 3 + right + left[:-1]
    hops = b"".join(bytes([1, 8]) + end + bytes([32, 0]) for end in [last, first] * 3 + [last])
    there = pack(4, first + second, must=True)
    with Run(program.path, room) as run:
        run.publish(*line())
        client = Client(run.port, "127.0.10.1")
        client.open()
        wait(lambda: client.ask(request(ends=there)).startswith("PCRep"))
        from_end = pack(4, first + last, must=True)
        checks.same("a route of 1,023 links", client.ask(request(ends=from_end)), f"PCRep {' '.join(right)} cost 1023")
        iro = pack(10, hops, must=True)
        whole = f"PCRep {' '.join(over)} cost 8183"
        checks.same("a route of 8,183 links", client.ask(request(iro, ends=there)), whole)
        for name, more in (("objects", {}), ("an SVEC", {"front": [pack(11, bytes(65000))]})):
            objects = [iro] if more else [iro, pack(99, bytes(65000))]
            checks.same(f"it is whole beside {name} that can't come back", client.ask(request(*objects, ends=there, **more)), whole)
        nobody = pack(4, ip(250) + ip(251), must=True)
        size = wire.MOST // 4 * 4 - len(request(ends=nobody)) - 4
        found = client.ask(request(ends=nobody, front=[pack(11, bytes(size))]))
        checks.same("no path beside an SVEC of a whole message", found, "NO-PATH 4")
        client.report(1, ends=(first, last))
        client.report(0, 0)
        checks.same("an LSP of 1,023 links", client.read(), f"PCUpd {' '.join(right)}")


IGP = metric(1, 0, 0, False)  # to be optimized: it is refused without P, too
PREFIXES = (32, 32, 32, 24, 30, 8)


def drawn(program, checks, room):
    """Requests of all forms in networks that change, each answer judged by the reference at the version of its reply line."""
    draw = random.Random(89)
    networks, sent, answers = [formats.Network()], {}, {}
    with Run(program.path, room) as run:
        client = opened(run, "127.0.11.1")
        for number in range(40):
            before, batch = networks[-1], changes(draw, networks[-1])
            networks.append(before.after([formats.row(row.split(",")) for row in batch]))
            data = b""
            for _ in range(10):
                sent[len(sent) + 1] = form = drawn_request(draw, len(sent) + 1)
                data += form[0]
            client.socket.sendall(data[:len(data) // 2])
            run.publish(*batch)
            client.socket.sendall(data[len(data) // 2:])
            for _ in range(10):
                kind, objects = client.raw()
                about = next(struct.unpack("!4xI", one.body[:8])[0] for one in objects if one.kind == 2)
                answers.setdefault(about, []).append((kind, objects))
        checks.same("drawn: SIGTERM", run.end(), 0)
        lines = [*zip(run.kept(1, "requests").splitlines(), run.kept(1, "replies").splitlines())][1:]  # without that of `opened`
        checks.same("drawn: each request has one answer", ({*answers}, {len(found) for found in answers.values()}), ({*sent}, {1}))
        replied = iter([(about, told(*found[0])) for about, found in answers.items() if found[0][0] == wire.REPLY])
        versions, faults, outcomes = [], [], {}
        for (row, kept), (about, words) in zip(lines, replied):
            version = int(re.match(r"ask \d+ v(\d+) ", kept)[1])
            versions.append(version)
            _, wanted, bound, error = sent[about]
            text = networks[version].reply(version, row)
            outcomes[words.split()[0]] = outcomes.get(words.split()[0], 0) + 1
            if error or row.split(",", 2)[2] != wanted or text != kept or words != words_of(kept, bound):
                faults.append((about, row, wanted, kept, text, words))
        checks.same("drawn: each is the reference's at its version", faults[:2], [])
        refused = {about: told(*found[0]) for about, found in answers.items() if found[0][0] == wire.ERROR}
        wanted = {about: f"PCErr {form[3]}" for about, form in sent.items() if form[3]}
        checks.same("drawn: and each error is the mapping's", refused, wanted)
        checks.same("drawn: each reply line is of one answer", len(lines), len(answers) - len(refused))
        judged = program.audit(open(run.places["journal"]).read(), run.kept(1, "requests"), run.kept(1, "replies"))
        checks.true("drawn: the audit", judged[0] == 0 and b" faults=0\n" in judged[1], judged)
        fewest = min(outcomes.get("PCRep", 0), outcomes.get("NO-PATH", 0), len(refused))
        checks.true("drawn: many versions and outcomes", len({*versions}) >= 30 and fewest >= 20, outcomes)
        print(f"pcep: {len(sent)} requests drawn, {outcomes} and {len(refused)} errors at {len({*versions})} versions")


def drawn_request(draw, number):
    """Its bytes, the row that it is without word and id, the bound of its cost if any, and the error that it is answered by if any."""
    here, there = draw.sample(range(1, 10), 2)
    objects, masks, setup, value, hops, bounds, error = [], [0, 0, 0], 7, 0.0, [], [], None
    if draw.random() < 0.5:
        masks, setup = [draw.choice((0, 0, 1 << draw.randrange(3))) for _ in range(3)], draw.randrange(8)
        objects.append(lspa(*masks, setup))
    if draw.random() < 0.5:
        value = draw.choice((0.5, 500, 500.25, 999, 1000, 4000, 1e9))
        objects.append(bandwidth(value, must=draw.random() < 0.5))
    if draw.random() < 0.4:
        hops = [(draw.randrange(1, 9), draw.choice(PREFIXES)) for _ in range(draw.choice((1, 1, 2, 3, 7)))]
        objects.append(pack(10, b"".join(hop(at, length=length) for at, length in hops), must=True))
    if draw.random() < 0.3:
        bounds = [draw.randrange(1, 16)]
        objects.append(metric(2, bounds[0]))
    if draw.random() < 0.2:
        objects.append(metric(2, 0, 0))
    if draw.random() < 0.3:  # what a row can't say
        must = draw.random() < 0.4
        what, found = draw.choice((
            (metric(3, 5, must=must), "4/4"), (IGP, "4/4"), (pack(99, bytes(4) + hop(2), must=must), "3/1"),
            (pack(21, struct.pack("!HH", 2, 0), must=must), "4/4"), (pack(8, hop(2), must=must), "4/1"), (bandwidth(1, 2, must), "4/2")))
        objects.append(what)
        error = found if must or what is IGP else None
    draw.shuffle(objects)
    data = bytearray(request(*objects, ends=pack(4, ip(here) + ip(there), must=True)))
    struct.pack_into("!I", data, 12, number)  # the RP's id
    row = (f"10.0.0.{here},10.0.0.{there},{setup},{int(-(-value // 1))},{','.join(f'0x{mask:08x}' for mask in masks)},"
           + " ".join(f"10.0.0.{at}/{length}l" for at, length in hops))
    return bytes(data), row, bounds[0] if bounds else None, error


def words_of(text, bound):
    """What a PCC gets for a reply line."""
    found = re.match(r"ask \d+ v\d+ (\S+)(?: cost=(\d+) \S+ \S+ ero=(\S+))?", text)
    if found[1] != "route":
        return {"none": "NO-PATH 0", "unknown-from": "NO-PATH 4", "unknown-to": "NO-PATH 2"}[found[1]]
    if bound is not None and int(found[2]) > bound:
        return f"NO-PATH 0 above {bound}"
    data = bytes.fromhex(found[3])
    return f"PCRep {' '.join(socket.inet_ntoa(data[at + 2:at + 6]) for at in range(4, len(data), 8))} cost {found[2]}"
