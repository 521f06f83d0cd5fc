"""The words of the command line of routed-tools listen."""
from __future__ import annotations

import argparse

from .. import program
from ..net.endpoints import Endpoint
from ..net.log import LEVELS

IDLE = 300  # seconds, at a port
MOST_RUNS = 999_999  # the greatest number of a run
RATE, MOST_RATE = 500, 1_000_000  # rows a second of a connection that places


def mode(text: str) -> int:
    """Permissions as octal digits."""
    value = int(text, 8)
    if not 0 <= value <= 0o777:
        raise ValueError
    return value


def run(text: str) -> int:
    """The number of a run."""
    value = int(text)
    if not 0 < value <= MOST_RUNS:
        raise ValueError
    return value


def seconds(text: str) -> float:
    """A time that can be waited for."""
    value = float(text)
    if not 0 <= value <= 86400 * 366:
        raise ValueError
    return value


def parser(text: str) -> argparse.ArgumentParser:
    """What reads the words. The text of --help begins with this one."""
    words = argparse.ArgumentParser(prog="routed-tools listen", description=text, formatter_class=argparse.RawDescriptionHelpFormatter)
    words.add_argument("--journal", required=True, metavar="FILE", help="a new file, for the batches of this run")
    words.add_argument("--begin", metavar="FILE",
                       help="batches that are published before any connection is taken: a snapshot of the run before; "
                            "with --placements rows of a book")
    words.add_argument("--run", type=run, metavar="N", help="the number of this run, which it tells")
    words.add_argument("--renew", action="store_true", help="once the journal has failed and there is room again, end with status 3")
    words.add_argument("--ask", required=True, type=Endpoint, metavar="PLACE", help="where clients ask")
    words.add_argument("--updates", required=True, type=Endpoint, metavar="PLACE", help="where updates come in")
    words.add_argument("--clients", type=int, choices=range(1, 65), default=64, metavar="N", help="how many ask at once, 1 to 64 (64)")
    words.add_argument("--mode", type=mode, default=0o600, help="permissions of UNIX sockets, octal (600)")
    words.add_argument("--ask-mode", type=mode, metavar="MODE", help="those of the socket where clients ask (that of --mode)")
    words.add_argument("--updates-mode", type=mode, metavar="MODE", help="those of the socket where updates come in (that of --mode)")
    words.add_argument("--each", type=int, choices=range(0, 65), default=0, metavar="N",
                       help="how many asking connections one user has at once at paths, or one address at a port, 0 for any number (0)")
    for option, word in (("--except", "except"), ("--pairs", "pair")):
        words.add_argument(option, action="append_const", const=option, dest="questions", default=[],
                           help=f"take `{word}` rows of those who ask")
    words.add_argument("--direct", type=Endpoint, metavar="PLACE", help="where clients of this machine get the ends of their own pipes")
    words.add_argument("--direct-mode", type=mode, metavar="MODE", help="that of the socket of --direct (that of --ask-mode)")
    words.add_argument("--watch", type=Endpoint, metavar="PLACE", help="where the line of each version is read")
    words.add_argument("--show", type=Endpoint, metavar="PLACE", help="where the line `snapshot` shows the network, and no line changes it")
    words.add_argument("--show-mode", type=mode, metavar="MODE", help="that of the socket of --show (that of --ask-mode)")
    words.add_argument("--placements", type=Endpoint, metavar="PLACE", help="where programs place, with a book of the server; with --keep")
    words.add_argument("--placements-mode", type=mode, metavar="MODE", help="that of the socket of --placements (that of --mode)")
    words.add_argument("--placings", type=program.number("number of rows", 1, MOST_RATE), default=RATE, metavar="N",
                       help=f"how many `place`, `held` and `release` rows a second of one connection are passed on ({RATE})")
    words.add_argument("--keep", metavar="FILE", help="a new file, for the accepted rows of the book; with --placements")
    words.add_argument("--metrics", type=Endpoint, metavar="PLACE", help="where figures are read, by HTTP at /metrics")
    words.add_argument("--log-level", choices=LEVELS, default="warning", help="which lines of the log are written (warning)")
    words.add_argument("--idle", type=seconds, metavar="SECONDS",
                       help=f"after which an idle connection at the place of --ask is ended, 0 for never ({IDLE} at a port, never at a "
                            "path); direct ones never are")
    program.add_option(words)
    return words


def read(text: str, given: list[str] | None) -> argparse.Namespace:
    """The options that words give."""
    words = parser(text)
    options = words.parse_args(given)
    if options.direct and not options.direct.path:
        words.error("argument --direct: files are passed at the path of a UNIX socket alone")
    if bool(options.placements) != bool(options.keep):
        words.error("arguments --placements and --keep: each needs the other")
    options.program = program.find(options.program)
    return options


def idle_of(options: argparse.Namespace) -> float:
    """Seconds after which an idle asking connection is ended, 0 for never."""
    return float(options.idle) if options.idle is not None else 0 if options.ask.path else IDLE


def mode_of(options: argparse.Namespace, kind: str) -> int:
    """The permissions of the socket of a place."""
    given = {"updates": options.updates_mode, "placements": options.placements_mode, "metrics": None}
    if kind not in given:
        given[kind] = getattr(options, f"{kind}_mode", None)
        given[kind] = options.ask_mode if given[kind] is None else given[kind]
    return int(options.mode if given[kind] is None else given[kind])
