"""A tool of this tree in whose callbacks exceptions are planted: `planted.py FILE TOOL WORDS`.

Each line of FILE names one of PLACES, as `Channel.take`, and maybe whose, as `Pcc.tick 127.0.0.1` or `Watcher.tell 2`. The next call of the
first line's place raises, before it does anything, or with a `!` behind the name after it has done all. The line is gone then."""
import os
import sys

sys.dont_write_bytecode = True
sys.path.insert(1, os.path.join(os.path.dirname(os.path.dirname(os.path.dirname(os.path.abspath(__file__)))), "python"))
from routed import tools
from routed.feed.bgpls import lsdb
from routed.feed.ospf import lsas
from routed.follow import asks, versions
from routed.front import accounts, books, channels, direct, listen, placing, relays, seats, snapshots, updates, watch
from routed.net import http, stream
from routed.pcep import admission, answers, front, making, moves, pcc, session


class Planted(Exception):
    """What is planted."""


PLACES = {
    "listen": [(channels.Channel, "begin take settle read_lines finish"), (relays.Relay, "end_idle over"),
               (updates.Updates, "go_on drop_changes"), (direct.Direct, "begin read hang_up over finish"), (seats.Seat, "begin renew"),
               (accounts.Account, "rows lines"), (snapshots.Snapshots, "begin look"), (books.Books, "book look make"),
               (placing.Placer, "tell go_on pass_on begin_text"), (watch.Watcher, "tell go_on"),
               (http, "answer_to"), (http.Reading, "close"), (stream.Stream, "peer drop"), (listen.Front, "signalled")],
    "pcep": [(pcc.Pcc, "go_on proceed flush tick close"), (session.Session, "message again"),
             (answers.Answers, "begin answered"), (moves.Moves, "again following answered"), (making.Making, "reread"),
             (admission.Returning, "look"), (front.Front, "take signalled"), (asks.Connection, "read"), (versions.Watch, "read"),
             (http, "answer_to")],
    "feed": [(lsas.Lsdb, "take network"), (lsdb.Lsdb, "take network"), (http, "answer_to")]}


def plant(file, where, name):
    real, title = getattr(where, name), f"{where.__name__.rpartition('.')[2]}.{name}"

    def planted(*given):
        if is_next(file, title, given):
            raise Planted("of two\nlines")
        found = real(*given)
        if is_next(file, f"{title}!", given):
            raise Planted("of two\nlines")
        return found

    setattr(where, name, planted)


def is_next(file, title, given):
    """Whether the file's first line is this call, which it has no more then."""
    try:
        with open(file, encoding="ascii") as lines:
            first, *rest = lines.read().splitlines()
    except (OSError, ValueError):  # it isn't there, or has no line
        return False
    wanted, _, whose = first.partition(" ")
    if wanted != title or whose and whose != name_of(given[0]):
        return False
    with open(file, "w", encoding="ascii") as lines:
        lines.write("".join(f"{line}\n" for line in rest))
    return True


def name_of(one):
    """The number of a watcher; else the address of the PCC that this belongs to."""
    if isinstance(one, watch.Watcher):
        return str(one.number)
    return one.peer if hasattr(one, "peer") else one.session.peer


if __name__ == "__main__":
    for place, names in PLACES[sys.argv[2]]:
        for called in names.split():
            plant(sys.argv[1], place, called)
    sys.exit(tools.main(sys.argv[2:]))
