"""SIDs of the server's run, in the whole front beside the built program."""
import os
import struct

from pcep.beside import Client, Run, wait
from pcep.played import NORTH, request, rows

from routed.pcep import wire
from routed.pcep.wire import pack, tlv

LINKS = (1, 2), (2, 4), (1, 3), (3, 4)


def named(program, checks, room):
    """A path by SIDs is sent while the file of SIDs is of the run that listen names, and not before nor after it."""
    path = os.path.join(room, "sids")

    def write(run_of, first):
        with open(f"{path}.new", "w") as file:
            file.write(f"run,{run_of}\n")
            file.writelines(f"sid,1,10.0.0.{a},10.{a}.{b}.{a},{first + 10 * a + b}\n" for a, b in LINKS)
        os.replace(f"{path}.new", path)

    def name_of(run):
        run.updates.sendall(b"run\n")
        word, name = run.updates.recv(100).split()
        checks.same("listen names its run", (word, len(name)), (b"run", 16))
        return name.decode()

    def asked(client, wanted):
        found = []
        wait(lambda: found.append(client.ask(request(setup_type=1))) or found[-1] == wanted)
        return found

    write("00", 1000)
    with Run(program.path, room, "--sids", path) as run:
        run.publish(*rows())
        client = Client(run.port, "127.0.15.1")
        types = tlv(34, bytes([0, 0, 0, 2, 0, 1, 0, 0]) + tlv(26, bytes([0, 0, 0, 9])))
        client.socket.sendall(wire.message(1, pack(1, bytes([0x20, 30, 120, 9]) + tlv(16, struct.pack("!I", 5)) + types)) + wire.message(2))
        client.read()
        client.read()
        checks.same("SIDs of another run aren't used", [client.ask(request(setup_type=1)) for _ in range(5)], ["NO-PATH 1"] * 5)
        wait(lambda: "aren't of this run" in run.said())
        checks.same("a line says so", run.said().count("aren't of this run"), 1)
        name = name_of(run)
        write(name, 2000)
        path_of = f"PCRep {' '.join(NORTH)} cost 100 labels"
        checks.same("SIDs of this run are", asked(client, f"{path_of} [2012, 2024]")[-1], f"{path_of} [2012, 2024]")
        run.leave()
        os.unlink(run.places["journal"])
        run.serve()
        run.publish(*rows())
        wait(lambda: client.ask().startswith("PCRep"))
        checks.same("a server that begins again, with the same network", [client.ask(request(setup_type=1)) for _ in range(5)],
                    ["NO-PATH 1"] * 5)
        again = name_of(run)
        checks.true("each run has another name", again != name)
        write(again, 3000)
        checks.same("SIDs of its run", asked(client, f"{path_of} [3012, 3024]")[-1], f"{path_of} [3012, 3024]")
