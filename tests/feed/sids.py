"""Tests of the feed's adjacency SIDs: the file that `--sids` writes, beside the batches, and the group of `--sid-group`.

The router is the one that tests/feed/played.py plays, and its LSAs are built here.
"""
import os
import resource
import socket
import stat
import subprocess
import tempfile

from feed.played import A, A_B, B, B_A, B_C, C, FEED, HOLD, PAIR_ROWS, PATIENCE, ROUTERS, RUN, Feed, Router
from feed.played import lsa, raw, removal, router_lsa, row, snapshot, te_lsa, tlv, update

OWN, OF_BACKUP, OF_GROUP, INDEX = 0x60, 0xe0, 0x70, 0  # flags: a local label of one link; of a backup; of links; of no label


def sid(label, flags=OWN, size=3):
    return tlv(2, bytes([flags, 0, 0, 0]) + label.to_bytes(size, "big"))


def link_lsa(router, local, *parts, neighbor=B, kind=1, number="8.0.0.1", **more):
    """An extended link LSA; a sub-TLV of the remote address stands before the SIDs, as FRR has it."""
    value = bytes([kind, 0, 0, 0]) + raw(neighbor) + raw(local) + tlv(9, raw("10.8.8.8")) + b"".join(parts)
    return lsa(10, number, router, tlv(1, value), **more)


def text_of(path):
    with open(path, encoding="ascii") as file:
        return file.read()


class Told:
    """A feed with a file of SIDs, or of SRLGs, in a folder of its own."""

    def __init__(self, *words, name="sids", **more):
        self.folder = tempfile.TemporaryDirectory()
        self.path = os.path.join(self.folder.name, name)
        self.router = Router()
        self.feed = Feed(self.router, f"--{name}", self.path, *words, **more)
        self.read = 0

    def lines(self):
        """The lines that were written since the last look."""
        text = text_of(self.path)
        new, self.read = text[self.read:], len(text)
        return new.removeprefix(f"run,{RUN}\n").splitlines()

    def batch(self, answer=None):
        """The next batch, and the lines of the file that stand there before it is answered, since the answer may bring more."""
        found = []
        batch = self.feed.batch(answer, lambda: found.extend(self.lines()))
        return batch, found

    def play(self, *lsas):
        """Sends LSAs; the lines of the file that stand there once the batch has come, and the batch's rows."""
        self.router.send(update(*lsas))
        (rows, _), found = self.batch()
        return found, rows

    def quiet(self, *lsas):
        """Sends LSAs that make no batch, and gives the lines."""
        self.router.send(update(*lsas))
        if not self.feed.is_quiet():
            raise AssertionError("a batch for a line of the file alone")
        return self.lines()

    def end(self):
        said = self.feed.end()
        self.router.hang_up()
        self.folder.cleanup()
        return said


SIDS = [f"sid,1,{A},{A_B},17", f"sid,1,{B},{B_A},1048575"]
BOTH = link_lsa(A, A_B, sid(17)), link_lsa(B, B_A, sid(0x1fffff), neighbor=A)  # a label is the lower 20 bits
LINKS = te_lsa(A, A_B, B, B_A), te_lsa(B, B_A, A, A_B)


def lines(checks):
    """Lines of the version at which they count, before its batch."""
    told = Told("--verbose")
    checks.same("no file before the first look", os.path.exists(told.path), False)
    checks.same("all SIDs, with the first batch", told.play(*ROUTERS, *LINKS, *BOTH), (SIDS, PAIR_ROWS))
    checks.same("the first line is the run", text_of(told.path).splitlines()[:2], [f"run,{RUN}", SIDS[0]])
    checks.same("a label that changes: at the present version", told.quiet(link_lsa(A, A_B, sid(18), sequence=2)), [f"sid,1,{A},{A_B},18"])
    checks.same("a refreshed one is nothing", told.quiet(link_lsa(A, A_B, sid(18), sequence=3)), [])
    checks.same("a SID that is gone", told.quiet(link_lsa(A, A_B, sequence=4)), [f"sid,1,{A},{A_B},"])
    checks.same("with other changes: at their batch's version",
                told.play(te_lsa(A, A_B, B, B_A, metric=9, sequence=2), link_lsa(A, A_B, sid(19), sequence=5)),
                ([f"sid,2,{A},{A_B},19"], [row(A, A_B, B, B_A, metric=9)]))
    checks.same("an older instance's removal removes none", (told.router.send(removal(link_lsa(A, A_B, sequence=2))), told.quiet())[1], [])
    told.router.send(removal(link_lsa(A, A_B, sequence=5)))
    checks.same("a removal", told.quiet(), [f"sid,2,{A},{A_B},"])
    checks.same("a link that goes takes its SID along", told.play(router_lsa(A, sequence=2)),
                ([f"sid,3,{B},{B_A},"], [f"drop,{A},{A_B}", f"drop,{B},{B_A}"]))
    checks.same("a SID of no link is no line", told.quiet(link_lsa(C, B_C, sid(99))), [])
    told.end()


def which(checks):
    """Which SIDs count as a link's own: not those of backups or groups."""
    for name, wanted, *lsas in [
            ("the first of several", 20, link_lsa(A, A_B, sid(20), sid(21))),
            ("not a backup's", 21, link_lsa(A, A_B, sid(20, OF_BACKUP), sid(21))),
            ("not a group's", 21, link_lsa(A, A_B, sid(20, OF_GROUP), sid(21))), ("no index", None, link_lsa(A, A_B, sid(20, INDEX, 4))),
            ("no global label", None, link_lsa(A, A_B, sid(20, 0x40))),
            ("a label without its own length", None, link_lsa(A, A_B, sid(20, OWN, 4))),
            ("no label below 16", None, link_lsa(A, A_B, sid(15))), ("16 is one", 16, link_lsa(A, A_B, sid(16))),
            ("not of another kind of link", None, link_lsa(A, A_B, sid(20), kind=2)),
            ("not of another router's LSA", None, link_lsa(B, A_B, sid(20))),
            ("a SID at a LAN isn't one", None, link_lsa(A, A_B, tlv(3, bytes([OWN, 0, 0, 0]) + raw(B) + bytes([0, 0, 20])))),
            ("of two LSAs that of the smaller number", 22, link_lsa(A, A_B, sid(23), number="8.0.0.2"), link_lsa(A, A_B, sid(22))),
            ("another opaque LSA is nothing", None, link_lsa(A, A_B, sid(20), number="7.0.0.1"))]:
        told = Told()
        found, rows = told.play(*ROUTERS, *LINKS, *lsas)
        checks.same(f"SIDs: {name}", (found, rows), ([] if wanted is None else [f"sid,1,{A},{A_B},{wanted}"], PAIR_ROWS))
        told.end()
    router = Router()
    feed = Feed(router, "--verbose")
    router.send(update(*ROUTERS, *LINKS, link_lsa(A, A_B)[:-2]))
    checks.same("without the words, such LSAs are nothing", (feed.batch()[0], "can't be read" in feed.end()), (PAIR_ROWS, False))


def malformed(checks):
    """An LSA that is cut at each byte takes the SID away and nothing else; it is counted where it can't be read."""
    whole, told = link_lsa(A, A_B, sid(17)), Told("--verbose")
    told.play(*ROUTERS, *LINKS, whole)
    found = []
    for size in range(20, len(whole)):
        found.append((size, told.quiet(whole[:size]), told.quiet(whole)))
    checks.same("each cut takes the SID away, and the whole brings it back",
                [each for each in found if each[1:] != ([f"sid,1,{A},{A_B},"], [f"sid,1,{A},{A_B},17"])], [])
    told.quiet(whole[:30])
    said = told.end()
    checks.true("what can't be read is said and counted",
                f"ospf: left out, an LSA that can't be read: {A} extended link LSA 8.0.0.1\n" in said
                and "left out: an LSA that can't be read 1\n" in said, said[-400:])
    told = Told()
    told.play(*ROUTERS, *LINKS, *BOTH)
    for size in range(20):
        told.router.send(update(whole[:size]))
    checks.same("an LSA whose header is cut is nothing", told.quiet(), [])
    told.end()


def groups(checks):
    """Exactly the links that have a SID are in the group."""
    told, top = Told("--sid-group", "31"), 1 << 31
    mine = te_lsa(B, B_A, A, A_B, group=top | 5)
    checks.same("added to one, taken from another", told.play(*ROUTERS, LINKS[0], mine, BOTH[0]),
                (SIDS[:1], [row(A, A_B, B, B_A, group=top), row(B, B_A, A, A_B, group=5)]))
    checks.same("a SID that comes", told.play(BOTH[1]), ([f"sid,2,{B},{B_A},1048575"], [row(B, B_A, A, A_B, group=top | 5)]))
    checks.same("one that goes", told.play(link_lsa(A, A_B, sequence=2)), ([f"sid,3,{A},{A_B},"], PAIR_ROWS[:1]))
    checks.same("a label alone makes no batch", told.quiet(link_lsa(B, B_A, sid(18), neighbor=A, sequence=2)), [f"sid,3,{B},{B_A},18"])
    told.end()
    for group in ("-1", "32", "x", ""):
        ran = subprocess.run([*FEED, "--sid-group", group], stdin=subprocess.DEVNULL, capture_output=True, text=True)
        checks.true(f"no group: {group}", ran.returncode == 2 and "Traceback" not in ran.stderr, ran)


def refusals(checks):
    """Another batch takes the number of one that was refused: its lines are written again, and say what that batch has."""
    told = Told("--sid-group", "0")
    told.router.send(update(*ROUTERS, *LINKS, *BOTH))
    grouped = [each.replace("0x00000000", "0x00000001") for each in PAIR_ROWS]
    checks.same("a batch that is refused", told.batch("batch 1 refused: memory"), ((grouped, 1), SIDS))
    checks.same("its half takes the number", told.batch(), ((grouped[:1], 1), SIDS))
    checks.same("and the other half the next, with nothing more to say", told.batch(), ((grouped[1:], 2), []))
    told.router.send(update(link_lsa(A, A_B, sequence=2), link_lsa(B, B_A, neighbor=A, sequence=2)))
    gone = [f"sid,3,{A},{A_B},", f"sid,3,{B},{B_A},"]
    checks.same("SIDs that go in a batch that is refused", told.batch("batch 3 refused: memory"), ((PAIR_ROWS, 3), gone))
    checks.same("that of a link which the half leaves in the group is there", told.batch(),
                ((PAIR_ROWS[:1], 3), [gone[0], f"sid,3,{B},{B_A},1048575"]))
    checks.same("until its batch", told.batch(), ((PAIR_ROWS[1:], 4), [f"sid,4,{B},{B_A},"]))
    told.end()


def held(checks):
    """Behind a connection that comes back, SIDs are held as links are."""
    told = Told("--sid-group", "0")
    told.play(*ROUTERS, *LINKS, *BOTH)
    told.router.hang_up()
    told.feed.again()
    checks.same("nothing is told: nothing is dropped", told.quiet(), [])
    checks.same("one is told with another label", told.quiet(*ROUTERS, LINKS[0], link_lsa(A, A_B, sid(44))), [f"sid,1,{A},{A_B},44"])
    told.feed.waits(HOLD)
    checks.same("what isn't told goes with its link", told.batch(), (([f"drop,{B},{B_A}"], 2), [f"sid,2,{B},{B_A},"]))
    told.end()


def runs(checks):
    """The file says which run of the program it is of, if the program has a name for it."""
    for answer, wanted in (("run 00ff", ["run,00ff", SIDS[0]]), ("row 1 refused: kind", SIDS)):
        told = Told(run=answer)
        told.play(*ROUTERS, *LINKS, *BOTH)
        checks.same(f"a program that answers {answer!r}", text_of(told.path).splitlines()[:2], wanted)
        told.end()


def booked(checks):
    """Where the program has a book, lines have the published version, which placings raise, and not the number of the base's batch."""
    told = Told()
    told.router.send(update(*ROUTERS, *LINKS, *BOTH))
    checks.same("before the first batch", told.batch("base 1 v1"), ((PAIR_ROWS, 1), SIDS))
    told.router.send(update(te_lsa(A, A_B, B, B_A, metric=9, sequence=2), link_lsa(A, A_B, sid(18), sequence=2)))
    checks.same("a batch behind which others have placed", told.batch("base 2 v7"),
                (([row(A, A_B, B, B_A, metric=9)], 2), [f"sid,2,{A},{A_B},18"]))
    checks.same("a label that changes: at the version that is published", told.quiet(link_lsa(A, A_B, sid(19), sequence=3)),
                [f"sid,7,{A},{A_B},19"])
    told.router.send(update(te_lsa(A, A_B, B, B_A, metric=8, sequence=3), te_lsa(B, B_A, A, A_B, metric=8, sequence=2),
                            link_lsa(A, A_B, sid(20), sequence=4)))
    both = [row(A, A_B, B, B_A, metric=8), row(B, B_A, A, A_B, metric=8)]
    checks.same("a batch that is refused", told.batch("batch 3 refused: memory"), ((both, 3), [f"sid,8,{A},{A_B},20"]))
    checks.same("its half has its lines", told.batch("base 3 v12"), ((both[:1], 3), [f"sid,8,{A},{A_B},20"]))
    checks.same("and the other half no more", told.batch("base 4 v13"), ((both[1:], 4), []))
    checks.same("and the next lines are of their version", told.quiet(link_lsa(A, A_B, sid(21), sequence=5)), [f"sid,13,{A},{A_B},21"])
    told.end()
    told = Told(version=38, told=["base 7 v40", *snapshot(0, PAIR_ROWS)[1:]])
    checks.same("a feed that goes on with a base", told.quiet(*ROUTERS, *LINKS, *BOTH), [each.replace(",1,", ",40,", 1) for each in SIDS])
    told.router.send(update(te_lsa(A, A_B, B, B_A, metric=9, sequence=2), link_lsa(A, A_B, sid(18), sequence=2)))
    checks.same("and puts another metric", told.batch("base 8 v50"), (([row(A, A_B, B, B_A, metric=9)], 8), [f"sid,41,{A},{A_B},18"]))
    told.end()


def again(checks):
    """A feed that starts again makes the file anew, by a rename."""
    grouped = [each.replace("0x00000000", "0x00000001") for each in PAIR_ROWS]
    told = Told("--sid-group", "0", version=1, told=snapshot(1, grouped))
    with open(told.path, "w", encoding="ascii") as file:
        file.write("sid,1,9.9.9.9,10.9.9.9,99\n")
        before = os.fstat(file.fileno()).st_ino
        told.feed.settle()
        found = told.play(*ROUTERS, LINKS[0], BOTH[0])
        checks.true("another file", os.stat(told.path).st_ino != before)
    checks.same("what the program had already is told at its version, and a link that is held without a SID leaves the group",
                found, (SIDS[:1], PAIR_ROWS[1:]))
    checks.same("no other file is left", os.listdir(told.folder.name), ["sids"])
    checks.same("which others can read", stat.S_IMODE(os.stat(told.path).st_mode) & 0o400, 0o400)
    told.end()


def faults(checks):
    """What can't be written ends the feed by its cause, and the file has whole lines."""
    told = Told()
    told.play(*ROUTERS, *LINKS, BOTH[0])
    size = os.stat(told.path).st_size
    resource.prlimit(told.feed.process.pid, resource.RLIMIT_FSIZE, (size + 9, size + 9))
    told.router.send(update(te_lsa(A, A_B, B, B_A, metric=9, sequence=2), BOTH[1]))
    told.feed.go(0.5)
    checks.same("a write that is cut", (told.feed.ended(), told.lines()), ((1, "", f"ospf: --sids {told.path}: File too large\n"), []))
    told.end()
    with tempfile.TemporaryDirectory() as room:
        for path, why in [("/nowhere/sids", "No such file or directory"), (room, "it is no regular file"),
                          ("/dev/null", "it is no regular file")]:
            ran = subprocess.run([*FEED, "--sids", path], stdin=subprocess.DEVNULL, capture_output=True, text=True, timeout=PATIENCE)
            checks.same(f"no file: {path}", (ran.returncode, ran.stdout, ran.stderr), (1, "", f"ospf: --sids {path}: {why}\n"))
        ran = subprocess.run([*FEED, "--once", "--sids", os.path.join(room, "sids")], stdin=subprocess.DEVNULL, capture_output=True,
                             text=True, timeout=PATIENCE)
        checks.true("not with --once", ran.returncode == 2 and "--once ends before any" in ran.stderr, ran)
        checks.same("nothing is left there", os.listdir(room), [])


def sids(_, checks):
    try:
        socket.create_server(("127.0.0.1", 0)).close()
    except OSError as fault:
        print(f"skipped: the feed's SIDs, since no socket can be had: {fault}")
        return
    checks.parts((lines, which, malformed, groups, refusals, held, runs, booked, again, faults), checks)
