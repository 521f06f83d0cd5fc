"""What the front reads beside the server: the journal that it follows, which has to be the server's, and the SIDs of one run."""
import os
import tempfile

from pcep.played import FREE, NORTH, SOUTH, Front, Pcc, report, rows, told

from routed.pcep import wire
from routed.pcep.network import Network as Followed
from routed.pcep.sids import Sids

NORTH_ERO, SOUTH_ERO = (wire.addresses_ero(route)[4:] for route in (NORTH, SOUTH))
TO_NORTH, TO_SOUTH = (f"PCUpd {' '.join(route)}" for route in (NORTH, SOUTH))
OTHERS = {"of other costs": [*rows([(1, 2, 7), (2, 4, 7), (1, 3, 7), (3, 4, 7)])], "of an empty network": [],
          "of other routers": [f"put,10.9.0.1,10.9.9.1,10.9.0.2,10.9.9.2,1,0x1,{FREE}"]}


def written(path, *batches):
    with open(path, "w") as file:
        for number, changes in enumerate(batches, 1):
            file.write("".join(f"{row}\n" for row in changes) + f"end,{number},{len(changes)}\n")
    return path


def sids_of(room, head="", links=((1, 2), (2, 4), (1, 3), (3, 4))):
    path = os.path.join(tempfile.mkdtemp(dir=room), "sids")
    with open(path, "w") as file:
        file.write(head)
        file.writelines(f"sid,1,10.0.0.{a},10.{min(a, b)}.{max(a, b)}.{a},{15000 + 10 * a + b}\n" for a, b in links)
    return path


def begun(front, ero, more=()):
    pcc = Pcc(front, is_sr=front.sids is not None)
    pcc.report(ero=ero, more=more)
    pcc.say(wire.message(10, *report(0, 0)))
    return pcc


def journals(checks, room):
    """A journal that isn't the server's moves no LSP and keeps none."""
    for name, changes in OTHERS.items():
        front = Front(tempfile.mkdtemp(dir=room), gain=100)
        front.network = Followed(written(os.path.join(tempfile.mkdtemp(dir=room), "old"), *[changes] * 9), front.say)
        front.publish(*rows())
        pcc = begun(front, SOUTH_ERO)
        checks.same(f"a journal {name}: an LSP is moved to its best route", [told(*one) for one in pcc.messages()], [TO_NORTH])
        pcc.report(ero=NORTH_ERO, srp=1)
        for _ in range(3):
            front.publish(*rows([(5, 6, 1)]))
            checks.same(f"a journal {name}: and stays on it", pcc.again(), [])
        said = [line for line in front.said if "isn't the journal of the server" in line]
        checks.same(f"a journal {name}: a line says so, once", len(said), 1)
        front.publish("drop,10.0.0.1,10.1.2.1")
        checks.same(f"a journal {name}: a circuit goes", pcc.again(), [TO_SOUTH])
    front = Front(tempfile.mkdtemp(dir=room))
    front.network = Followed(os.path.join(room, "nowhere"), front.say)
    front.publish(*rows())
    pcc = begun(front, SOUTH_ERO)
    found = [told(*one) for one in pcc.messages()]
    checks.same("a journal that isn't there", (found, "isn't the journal" in front.said[-2]), ([TO_NORTH], True))
    for text in ("", "no rows\n", "put,1\nend,1,1\n", "end,7,0\n", "drop,10.0.0.1,10.1.2.1\nend,1,1\n", "ask,1\nend,1,1\n",
                 "\0" * 99 + "\nend,1\n"):
        front = Front(tempfile.mkdtemp(dir=room))
        path = os.path.join(tempfile.mkdtemp(dir=room), "strange")
        with open(path, "w") as file:
            file.write(text)
        front.network = Followed(path, front.say)
        front.publish(*rows())
        checks.same(f"a journal that begins {text[:20]!r}", [told(*one) for one in begun(front, SOUTH_ERO).messages()], [TO_NORTH])
    found_again(checks, room)
    by_segments(checks, room)


def found_again(checks, room):
    """Of a folder another journal is tried; a file that is replaced is read again."""
    folder = tempfile.mkdtemp(dir=room)
    front = Front(tempfile.mkdtemp(dir=room), gain=100)
    own = front.journal = os.path.join(folder, "2.journal")
    front.publish(*rows())
    for at, name in enumerate((own, written(os.path.join(folder, "1.journal"), OTHERS["of other costs"]),
                               written(os.path.join(folder, "3.journal"), []))):
        os.utime(name, (at, at))
    front.network = Followed(folder, front.say)
    pcc = begun(front, NORTH_ERO)
    for _ in range(4):
        front.network.look_at = 0.0  # as if a second had gone
        pcc.again()
    checks.same("of a folder the journal that yields the answers is followed", (front.network.is_proved, front.network.tail.file.name),
                (True, own))
    front.publish(*rows([(1, 3, 1), (3, 4, 1)]))
    checks.same("and a route that still serves is kept by it", pcc.again(), [])
    written(os.path.join(folder, "4.journal"), [])
    front.publish(*rows([(1, 3, 1), (3, 4, 1)]))
    pcc.again()
    checks.same("a newer file takes it nothing away", (front.network.is_proved, front.network.tail.file.name), (True, own))
    front = Front(tempfile.mkdtemp(dir=room))
    path = written(os.path.join(room, "replaced"), OTHERS["of other costs"])
    front.network = Followed(path, front.say)
    front.publish(*rows())
    pcc = begun(front, NORTH_ERO)
    checks.same("a file that isn't it", front.network.is_proved, False)
    os.replace(front.journal, path)
    front.network.look_at = 0.0
    front.journal = path
    for _ in range(2):
        front.publish(*rows([(5, 6, 1)]))
        pcc.again()
    checks.same("once it is replaced by the server's", (front.network.is_proved, front.said[-1]),
                (True, f"{path}: it is the journal of the server that is asked"))
    front.publish(*rows([(5, 6, 1)]))
    front.network.begin()
    pcc.again()
    checks.same("a new run is followed from its beginning", (front.network.is_proved, front.network.version), (True, front.version))


def by_segments(checks, room):
    """With a journal that isn't the server's, or SIDs of another run, paths by SIDs are unavailable."""
    with_labels = f"PCRep {' '.join(NORTH)} cost 100 labels [15012, 15024]"
    for name, changes in OTHERS.items():
        front = Front(tempfile.mkdtemp(dir=room), Sids(sids_of(room)))
        front.network = Followed(written(os.path.join(tempfile.mkdtemp(dir=room), "old"), changes), front.say)
        front.publish(*rows())
        checks.same(f"a journal {name}: a path by SIDs", Pcc(front).ask(setup_type=1), ["NO-PATH 1"])
    for head, run, wanted in (("run,aa\n", "aa", with_labels), ("run,aa\n", "bb", "NO-PATH 1"), ("", "bb", "NO-PATH 1"),
                              ("run,aa\n", None, "NO-PATH 1"), ("", None, with_labels)):
        front = Front(tempfile.mkdtemp(dir=room), Sids(sids_of(room, head)))
        front.publish(*rows())
        front.sids.wanted = run
        checks.same(f"SIDs of the run {head.strip()!r}, a server of the run {run}", Pcc(front).ask(setup_type=1), [wanted])
    front = Front(tempfile.mkdtemp(dir=room), Sids(path := sids_of(room, "run,aa\n")))
    front.publish(*rows())
    front.sids.wanted = "aa"
    pcc = Pcc(front)
    checks.same("SIDs of the first run", pcc.ask(setup_type=1), [with_labels])
    front.sids.wanted = "bb"  # the server begins again, with the same network
    checks.same("the server begins again: its SIDs aren't known", pcc.ask(setup_type=1), ["NO-PATH 1"])
    os.replace(sids_of(room, "run,bb\n", [(1, 2)]), path)
    checks.same("until each link has a line of the new run", pcc.ask(setup_type=1), ["NO-PATH 1"])
    os.replace(sids_of(room, "run,bb\n", [(1, 2), (2, 4)]), path)
    checks.same("then they are", pcc.ask(setup_type=1), [with_labels])
