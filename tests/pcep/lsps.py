"""LSPs of the whole front: those that two PCCs report, those of `--initiate`, and its figures of them."""
import os
import signal
import socket
import struct
import subprocess

from checks import TOOLS, TOP
from pcep.beside import TO_NORTH, TO_SOUTH, Client, Run, addresses, begun, wait
from pcep.played import NORTH, PATH, SOUTH, ip, lspa, metric, request, rows, told

from routed.pcep import wire
from routed.pcep.wire import pack


def shared(program, checks, room):
    """An LSP that another PCC has delegated."""
    with Run(program.path, room) as run:
        run.publish(*rows())
        clients = [begun(run, f"127.0.7.{at}") for at in (1, 2)]
        clients[0].report(1)
        clients[0].report(0, 0)
        checks.same("an LSP of the first PCC", clients[0].read(), TO_NORTH)
        clients[1].report(0, 0)
        clients[1].report(5, ero=addresses(SOUTH))
        checks.same("reported by another, too", clients[1].read(), f"{TO_SOUTH} returned")
        clients[1].report(6, name=b"red")
        checks.same("one of another name", clients[1].read(), TO_NORTH)
        third = begun(run, "127.0.7.9")
        third.report(1, ends=(ip(2), ip(4)))
        third.report(0, 0)
        checks.same("one of that name and another head-end", third.read(), f"PCUpd {NORTH[1]}")
        third.close()
        run.publish("drop,10.0.0.1,10.1.2.1")
        checks.same("each moves once", ([clients[0].read()], [clients[1].read()]), ([TO_SOUTH], [TO_SOUTH]))
        clients[0].close()
        wait(lambda: run.figures()["sessions"] == 1)
        clients[1].report(5, 8, addresses(SOUTH))
        clients[1].report(5, ero=b"")
        checks.same("the other has it once the first has gone", clients[1].read(), TO_SOUTH)
        clients[0] = placed(run, "127.0.7.3")
        run.leave()
        os.unlink(run.places["journal"])
        run.serve()
        run.publish(*(row for row in rows() if "10.1.3." not in row))
        found = [clients[0].read(), clients[1].read(), clients[1].read()]
        checks.same("all are asked again in a new run of the server", found, [TO_NORTH] * 3)


def placed(run, source):
    """A PCC with an LSP that has a route."""
    client = Client(run.port, source)
    client.open()
    client.report(1, name=b"green")
    client.report(0, 0)
    client.read()
    return client


HEAD = "127.0.8.1"  # where the PCC connects from, and its Router ID
NEAR, FAR = ["10.8.4.4"], ["10.8.2.2", "10.2.4.4"]  # the routes from it to 10.0.0.4


def from_head():
    """From the head to 4 by a circuit of 1,000 bytes, and by 2."""
    for near, far, name, free in ((HEAD, "10.0.0.4", "8.4", 1000), (HEAD, "10.0.0.2", "8.2", 9000), ("10.0.0.2", "10.0.0.4", "2.4", 9000)):
        first, second = name.split(".")
        for one, other, here, there in ((near, far, first, second), (far, near, second, first)):
            yield f"put,{one},10.{name}.{here},{other},10.{name}.{there},50,0x0,{','.join([str(free)] * 8)}"


def made(client):
    """A PCInitiate or a PCUpd in words, and its SRP."""
    kind, objects = client.raw()
    of = {one.kind: one.body for one in objects}
    srp, = struct.unpack("!4xI", of[33][:8])
    if kind != wire.INITIATE:
        return told(kind, objects) + (f" bandwidth {struct.unpack('!f', of[5])[0]:g}" if 5 in of else ""), srp
    if of[33][3] & 1:
        return f"remove {struct.unpack('!I', of[32])[0] >> 12}", srp
    name = wire.tlvs_of(of[32][4:])[17].decode()
    return f"make {name} to {wire.address(of[4][4:])} by {' '.join(one.far for one in wire.hops_of(of[7]))}", srp


def wanted_again(program, checks, room):
    """SIGHUP: LSPs that are added to the file of --initiate, changed in it, and taken out."""
    path, red, green = os.path.join(room, "wanted"), f"red,{HEAD},10.0.0.4,7,1000,0x0,0x0,0x0", f"green,{HEAD},10.0.0.4,7,1,0x0,0x0,0x0"
    made_one, ends = 0x80 | 8 | 1, pack(4, socket.inet_aton(HEAD) + ip(4), must=True)

    def write(*lines):
        with open(f"{path}.new", "w") as file:
            file.write("".join(f"{line}\n" for line in lines))
        os.replace(f"{path}.new", path)

    write(red)
    with Run(program.path, room, "--initiate", path) as run:
        run.publish(*from_head())

        def again(*lines):
            write(*lines)
            run.pcep.send_signal(signal.SIGHUP)

        def report(number, name, srp, route=NEAR, flags=made_one, to=ip(4)):
            client.report(number, flags, addresses(route), name, srp, (socket.inet_aton(HEAD), to))

        def quiet(name):
            """Nothing but the answer to a request came."""
            checks.same(f"--initiate: {name}", client.ask(request(ends=ends)), f"PCRep {NEAR[0]} cost 50")

        _, (opened,) = Client(run.port, "127.0.8.9").raw()
        checks.same("--initiate: the capabilities of an Open", wire.tlvs_of(opened.body[4:])[16], bytes([0, 0, 0, 5]))
        client = Client(run.port, HEAD)
        client.open()
        wait(lambda: client.ask(request(ends=ends)).startswith("PCRep"))
        client.report(0, 0)
        found, srp = made(client)
        checks.same("--initiate: one of the file", found, f"make red to 10.0.0.4 by {NEAR[0]}")
        again(red)
        quiet("it isn't made twice before it is reported")
        report(1, b"red", srp)
        again(red, green)
        found, srp = made(client)
        checks.same("--initiate: one is added", found, f"make green to 10.0.0.4 by {NEAR[0]}")
        report(2, b"green", srp)
        again(red.replace(",1000,", ",2000,"), green)
        found, srp = made(client)
        checks.same("--initiate: more bandwidth than its circuit has", found, f"PCUpd {' '.join(FAR)} bandwidth 2000")
        report(1, b"red", srp, FAR)
        again(red.replace(",1000,", ",3000,"), green)
        found, srp = made(client)
        checks.same("--initiate: another bandwidth on the same route", found, f"PCUpd {' '.join(FAR)} bandwidth 3000")
        report(1, b"red", srp, FAR)
        run.publish(*from_head())
        quiet("a version alone changes nothing")
        again(red.replace(",1000,", ",3000,"), green.replace("10.0.0.4", "10.0.0.2"))
        found, srp = made(client)
        checks.same("--initiate: another end: removed first", found, "remove 2")
        run.publish(*from_head())
        quiet("it is removed once")
        report(2, b"green", srp, flags=made_one | 4)
        found, srp = made(client)
        checks.same("--initiate: then made with that end", found, f"make green to 10.0.0.2 by {FAR[0]}")
        report(3, b"green", srp, FAR[:1], to=ip(2))
        again("no line of LSPs")
        wait(lambda: "what was wanted before stays" in run.said())
        quiet("a file that can't be read changes nothing")
        again(green.replace("10.0.0.4", "10.0.0.2"))
        found, srp = made(client)
        checks.same("--initiate: one is taken out", found, "remove 1")
        run.publish(*from_head())
        quiet("it is taken out once")
        report(1, b"red", srp, FAR, flags=made_one | 4)
        run.publish(*from_head())
        quiet("it stays away")
        again(red, green.replace("10.0.0.4", "10.0.0.2"))
        found, srp = made(client)
        checks.same("--initiate: it is there again", found, f"make red to 10.0.0.4 by {NEAR[0]}")
        client.socket.sendall(wire.error(24, 1, pack(33, struct.pack("!II", 0, srp))))
        run.publish(*from_head())
        quiet("one that the PCC refused isn't asked for at each version")
        run.pcep.send_signal(signal.SIGHUP)
        checks.same("--initiate: but after SIGHUP", made(client)[0], f"make red to 10.0.0.4 by {NEAR[0]}")
        client.close()
        again(red)
        wait(lambda: run.figures()["sessions"] == 0)
        client = Client(run.port, HEAD)
        client.open()
        report(3, b"green", 0, FAR[:1], to=ip(2))
        client.report(0, 0)
        checks.same("--initiate: taken out while the PCC was away", [made(client)[0], made(client)[0]],
                    ["remove 3", f"make red to 10.0.0.4 by {NEAR[0]}"])


def updated(client):
    """The SRPs of the updates of LSPs 1 and 2, in any order."""
    found = {}
    for _ in range(2):
        of = {one.kind: one.body for one in client.raw()[1]}
        found[struct.unpack("!I", of[32][:4])[0] >> 12], = struct.unpack("!4xI", of[33][:8])
    return found[1], found[2]


def names_of_pccs(program, checks, room):
    """A line of the log has behind it the name of its PCC; a file of names that can't be read ends the tool."""
    names = os.path.join(room, "names")
    with open(names, "w", encoding="utf-8") as file:
        file.write("127.0.7.1 Far West\n10.0.0.1 North\n")
    with Run(program.path, room, "--names", names) as run:
        run.publish(*rows())
        client, other = placed(run, "127.0.7.1"), begun(run, "127.0.7.2")
        other.socket.sendall(bytes(8))  # no message of PCEP
        run.publish("drop,10.0.0.1,10.1.2.1", "drop,10.0.0.1,10.1.3.1")
        wait(lambda: " has no route: " in run.said() and "pcep: 127.0.7.2: " in run.said())
        found = [line for line in run.said().splitlines() if " has no route: " in line]
        checks.true("the PCC with a name", found[0].startswith("pcep: 127.0.7.1: LSP ") and found[0].endswith("  # Far West"), found)
        others = [line for line in run.said().splitlines() if "127.0.7.1" not in line and "#" in line]
        checks.same("lines of PCCs without a name", others, [])
        client.close()
        other.close()
    ran = subprocess.run([TOOLS, "pcep", "--ask", "x", "--names", os.path.join(room, "absent")], capture_output=True, text=True)
    checks.same("no such names", (ran.returncode, ran.stdout, ran.stderr),
                (2, "", f"pcep: {room}/absent: No such file or directory; give the path of a file that is there\n"))


def figures(program, checks, room):
    """--metrics: what was sent and answered is counted."""
    with Run(program.path, room) as run:
        run.publish(*rows())
        client = Client(run.port, "127.0.9.1")
        client.open()
        tries = []
        wait(lambda: tries.append(client.ask()) or tries[-1] == PATH)
        counted = {"route": 1, "unknown-from": tries.count("NO-PATH 4"), "unavailable": tries.count("NO-PATH 1")}
        checks.same("figures: no other answers before the network is there", len(tries), sum(counted.values()))
        from_9, to_9 = ({"ends": pack(4, ip(here) + ip(there), must=True)} for here, there in ((9, 4), (1, 9)))
        for outcome, count, objects, more in (("route", 6, [], {}), ("none", 3, [lspa(exclude=1)], {}),
                                              ("above the bound", 2, [metric(2, 99)], {}), ("unknown-from", 2, [], from_9),
                                              ("unknown-to", 1, [], to_9)):
            for _ in range(count):
                client.ask(request(*objects, **more))
            counted[outcome] = counted.get(outcome, 0) + count
        asked = sum(counted.values())
        for objects in ([metric(3, 9)], [metric(3, 9)], [pack(99, bytes(4), must=True)]):
            client.ask(request(*objects))
        client.report(1)
        client.report(2, name=b"red")
        client.report(0, 0)
        srps = updated(client)
        client.report(1, ero=addresses(NORTH), srp=srps[0])
        client.report(2, ero=addresses(NORTH), name=b"red", srp=srps[1])
        wait(lambda: run.figures()['updates_total{outcome="accepted"}'] == 2)
        run.publish("drop,10.0.0.1,10.1.2.1")
        srps = updated(client)
        client.report(1, ero=addresses(SOUTH), srp=srps[0])
        client.socket.sendall(wire.error(23, 0, pack(33, struct.pack("!II", 0, srps[1]))))
        run.publish("drop,10.0.0.1,10.1.3.1")
        wait(lambda: (found := run.figures())["lsps_without_route"] == 2 and 'messages_total{type="6"}' in found)
        twice = Client(run.port, "127.0.9.1")
        twice.read()
        found = run.figures()
        wanted = {"sessions": 1, "lsps": 2, "lsps_without_route": 2, "version": 3, "exceptions_total": 0, "replies_lost": 0,
                  **{f'turned_away_total{{reason="{reason}"}}': reason == "second" for reason in ("address", "key", "full", "second")},
                  **{f'messages_total{{type="{kind}"}}': count for kind, count in ((1, 1), (2, 1), (3, asked + 3), (6, 1), (10, 6))},
                  **{f'requests_total{{outcome="{outcome}"}}': count for outcome, count in counted.items() if count},
                  **{f'errors_total{{error="{error}"}}': count for error, count in (("4/4", 2), ("3/1", 1), ("9/1", 1))},
                  'refused_by_pccs_total{error="23/0"}': 1,
                  **{f'lsps_at_fault{{fault="{fault}"}}': 0 for fault in ("silent", "down", "unknown", "lost")},
                  'lsps_of_pcc{pcc="127.0.9.1"}': 2, 'lsps_at_fault{fault="refused"}': 1, 'connected': 1, 'journal_followed': 1,
                  'updates_total{outcome="accepted"}': 3, 'updates_total{outcome="refused"}': 1, 'updates_total{outcome="unanswered"}': 0,
                  'sessions_ended_total': 0,
                  'moves_total{reason="new"}': 2, 'moves_total{reason="lost"}': 2, 'moves_total{reason="none"}': 2}
        wanted = {name: float(value) for name, value in wanted.items()}
        checks.same("figures: each is what was done", sorted(found.items() - wanted.items()), sorted(wanted.items() - found.items()))
        with open(os.path.join(TOP, "docs/run/PCEP.md"), encoding="utf-8") as file:
            page = file.read()
        names = os.path.join(room, "names")
        with open(names, "w", encoding="utf-8") as file:
            file.write("127.0.9.1 Far West\n")
        around = {key: value for key, value in os.environ.items() if key != "ROUTED_NAMES"}
        for words, wanted in (([], "127.0.9.1 2"), (["--names", names], "Far West 2")):
            ran = subprocess.run([TOOLS, "status", run.places["figures"], *words], capture_output=True, text=True, env=around)
            shown = [line[19:] for line in ran.stdout.splitlines() if line.startswith("LSPs by PCC")]
            checks.same(f"status {words[:1]}: LSPs by PCC", (ran.returncode, shown), (0, [wanted]))
        absent = [TOOLS, "status", run.places["figures"], "--names", os.path.join(room, "absent")]
        ran = subprocess.run(absent, capture_output=True, text=True)
        checks.true("status: no such names", ran.returncode == 2 and ran.stderr.startswith(f"status: {room}/absent: No such file"), ran)
        checks.same("figures: each is on the page", [name for name in found if f"`routed_pcep_{name.partition('{')[0]}`" not in page], [])
        client.close()
        wait(lambda: run.figures()["sessions"] == 0)
        checks.same("figures: nobody is connected", [run.figures()[name] for name in ("sessions", "lsps", "lsps_without_route")], [0, 0, 0])
