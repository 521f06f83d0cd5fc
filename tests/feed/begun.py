"""A feed that comes to a program which has a database: what went meanwhile is dropped in time."""
import argparse
import os
import tempfile

from feed.played import A, A_B, B, BROKEN_DROPS, B_A, B_C, C, CHAIN_LINKS, CHAIN_ROUTERS, CHAIN_ROWS, C_B
from feed.played import MANY_DIGITS, PAIR_ROWS, Feed, Router, going_on, router_lsa, row, snapshot, update
from tools.readers import dressed


def not_begun(checks):
    """If the feed can't learn which database a program has, it ends and has written nothing."""
    def ended(version, *told, words=()):
        feed = Feed(router, *words, version=version, told=told, is_accepted=False)
        if not told:
            feed.process.stdin.close()
        return feed.ended()

    router, pipes = Router(), "ospf: standard input and output: "
    unknown = f"{pipes}it is at version 7, and its database isn't known"
    checks.same("no front and no journal", ended(7, "row 2 refused: kind"),
                (1, "", f"{unknown}: give --journal FILE, the journal of its run, or start the program again, too\n"))
    for line in ("snapshot refused: too many rows", "snapshot refused: No such file", "version 8", "snapshot end", "row 2 refused: fields"):
        checks.same(f"no database: {line}", ended(7, line), (1, "", f"{unknown}, for it answered: {line}\n"))
    whole = snapshot(7, CHAIN_ROWS)
    for name, lines, bad in [("a batch without its end", [*whole[:-2], whole[-1]], whole[1]),
                             ("a row that is none", [*whole[:3], "put,1", *whole[3:]], whole[1]),
                             ("a batch of another number", [*whole[:-2], "end,2,4", whole[-1]], whole[1]),
                             ("a line behind the batches", [*whole[:-1], "version 7", whole[-1]], "version 7"),
                             ("a row of another kind", [*whole[:-1], "ask,1", whole[-1]], "ask,1")]:
        checks.same(f"a snapshot with {name}", ended(7, *lines),
                    (1, "", f"{pipes}its snapshot has a line that is part of no batch: {bad}\n"))
    checks.same("the program ends before its snapshot", ended(7), (1, "", f"{pipes}the program ended\n"))
    feed = Feed(router, version=7, told=whole[:3], is_accepted=False)
    feed.process.stdin.close()
    checks.same("the program ends within its snapshot", feed.ended(), (1, "", f"{pipes}the program ended\n"))

    for line in ("busy", "refused", "unended 3", "version", "version one", ""):
        feed = Feed(router, version=None, is_accepted=False)
        feed.say(line)
        checks.same(f"no version, but {line!r}", feed.ended(), (1, "", f"{pipes}its version was asked for, and it answered: {line}\n"))
    feed = Feed(router, version=None, is_accepted=False)
    feed.process.stdin.close()
    checks.same("no version, but the end", feed.ended(), (1, "", f"{pipes}the program ended\n"))
    from routed.feed.database import begun
    from routed.net.loop import Stopped
    written, lines = [], [f"v{MANY_DIGITS} none", "v0"]
    program = argparse.Namespace(name="it", write=written.append)
    program.line = lambda: f"ask {written[0].split(',')[1]} {lines.pop(0)}" if lines else "no line"
    try:
        checks.fail(f"a version of many digits is none: {begun(program, None)}")
    except Stopped as fault:
        checks.same("a version of many digits is none", str(fault), "it: its version was asked for, and it answered: no line")
    for version, told in (None, ()), (7, ()), (7, whole[:3]):
        feed = Feed(router, version=version, told=told, is_accepted=False)
        feed.waits(59.9)
        feed.go(0.2)
        checks.same(f"no line for a minute: {version}, {len(told)} lines", feed.ended(),
                    (1, "", f"{pipes}no line came for 60 s, by which the feed learns what is there\n"))


def journals(checks):
    """A program without a front, whose journal the feed reads."""
    first = "\n".join([*CHAIN_ROWS, f"node,{A},0", "end,1,5\n"])
    whole = first + "\n".join([f"drop,{A},{A_B}", f"node,{A},1", row(B, B_C, C, C_B, metric=9), "end,2,3\n"])
    with tempfile.TemporaryDirectory() as room:
        path = os.path.join(room, "day.journal")
        router = Router()

        def feed_of(text, version):
            with open(path, "w", encoding="utf-8", newline="") as file:
                file.write(text)
            return Feed(router, "--hold", "3", "--journal", path, version=version, told=["row 2 refused: kind"], is_accepted=False)

        last = whole + f"put,{C},10.5.5.5,{A}"
        for name, text in [("", whole), (", without its last line feed", whole[:-1]), (", torn behind its last batch", last),
                           (", with a byte order mark, carriage returns and quotes", dressed(whole)),
                           (", in which a batch is being written", f"{whole}drop,{B},{B_A}\n"),
                           (", behind which a number is left out", whole + "end,4,0\n")]:
            feed = feed_of(text, 2)
            router.accept()
            router.send(update(CHAIN_ROUTERS[0], router_lsa(B, (A, B_A, 1), sequence=2), *CHAIN_LINKS))
            checks.same(f"a journal{name}", [feed.batch(), feed.batch()], [(PAIR_ROWS[:1], 3), (BROKEN_DROPS, 4)])
            checks.same(f"and no more{name}", (feed.is_quiet(), feed.end()), (True, going_on(2, 3, 0, 3)))
            router.hang_up()
        for name, text, version, count in [("fewer batches", first, 2, 1), ("more batches", whole, 1, 2),
                                           ("a torn batch", whole[:-9], 2, 1),
                                           ("none", "", 2, 0), ("another count", whole.replace("end,2,3", "end,2,4"), 2, 1),
                                           ("no journal's rows", "put,1\nend,1,1\n", 1, 0)]:
            why = f"it has {count} batches, and the program is at version {version}: give the journal of its run"
            checks.same(f"a journal that doesn't agree: {name}", feed_of(text, version).ended(),
                        (1, "", f"ospf: --journal {path}: {why}\n"))
        for name, why in [("nowhere", "No such file or directory"), ("", "Is a directory")]:
            path = os.path.join(room, name)
            feed = Feed(router, "--journal", path, version=2, told=["row 2 refused: kind"], is_accepted=False)
            checks.same(f"a journal that can't be read: {why}", feed.ended(), (1, "", f"ospf: --journal {path}: {why}\n"))
        feed = Feed(router, "--journal", "/nowhere", version=1, told=snapshot(1, PAIR_ROWS))
        checks.same("behind a front it isn't read", feed.end(), going_on(1, 2))
