"""Routers ask by PCEP (RFC 5440): a path computation element in front of `routed-tools listen`.

A PCC's request becomes one `ask` row, and its reply line a path or NO-PATH. What a row can't say is refused by an error of
its own. With --stateful, LSPs that PCCs delegate are asked again at each version, and moved where their best route is
another one. docs/run/PCEP.md has what is taken from where, and what is refused.

With --placements the server's book counts LSPs by segment routing. Nothing else is reserved: other LSPs may be placed on the same
bandwidth. There is no sign-on but TCP-MD5 (--keys).

`ready` is printed once PCCs may connect. SIGHUP reads the files of --initiate and --allow again, SIGTERM and SIGINT end it: PCCs keep their
LSPs. The status is 0 then, 2 where a word of the command line is refused, 3 where a socket or a file can't be had.
"""
import argparse
from collections.abc import Callable

from ..model.names import NamesRefused, add_names
from ..net.log import LEVELS, Log
from ..net.endpoints import Endpoint, Stopped
from ..program import failed
from .front import Front


def number(low: float, high: float, form: Callable = int) -> Callable:
    def read(text: str) -> float:
        value = form(text)
        if not low <= value <= high:
            raise ValueError
        return value

    read.__name__ = f"number from {low} to {high}"
    return read


def group(text: str) -> int:
    """The mask of an administrative group, 0 to 31."""
    return 1 << number(0, 31)(text)


def main(given: list[str] | None = None) -> int:
    """Takes the words of a command line, and answers the status."""
    words = argparse.ArgumentParser(prog="routed-tools pcep", description=__doc__, formatter_class=argparse.RawDescriptionHelpFormatter)
    words.add_argument("--ask", required=True, type=Endpoint, metavar="PLACE", help="where listen is asked")
    words.add_argument("--watch", type=Endpoint, metavar="PLACE", help="where listen tells versions")
    words.add_argument("--address", default="127.0.0.1", help="where PCCs connect (127.0.0.1)")
    words.add_argument("--port", type=number(0, 65535), default=4189, help="its port (4189); 0 for one that the system chooses")
    words.add_argument("--keys", metavar="FILE", help="lines `ADDRESS KEY`: PCCs that use TCP-MD5 (RFC 2385)")
    words.add_argument("--require-keys", action="store_true", help="take PCCs alone that have a line in --keys")
    words.add_argument("--allow", metavar="FILE",
                       help="take PCCs alone whose address is in a prefix of this file, one in a line; SIGHUP reads it again")
    words.add_argument("--pccs", type=number(1, 65536), default=256, metavar="N", help="how many are connected at once (256)")
    words.add_argument("--most-lsps", type=number(1, 1 << 20), default=4096, metavar="N",
                       help="how many LSPs a PCC may report (4096); with more its session ends by PCErr 20/1")
    words.add_argument("--messages", type=number(1, 1000000), default=1000, metavar="N",
                       help="how many messages of a PCC are read in a second (1000), a long one for as many as it has KiB; others wait")
    words.add_argument("--ask-seconds", type=number(0.1, 3600, float), default=5, metavar="SECONDS",
                       help="how long the server has for an answer (5); then the PCC is told that the PCE is unavailable")
    words.add_argument("--connections", type=number(1, 64), default=4, metavar="N", help="to the place of --ask (4)")
    words.add_argument("--sids", metavar="FILE",
                       help="adjacency SIDs, as feed --sids writes them: segment routing (path setup type 1); needs --journal and --watch")
    words.add_argument("--sid-group", dest="group", type=group, default=0, metavar="N",
                       help="links of a segment routing path are in this group")
    words.add_argument("--srlgs", metavar="FILE",
                       help="SRLGs of links, as feed --srlgs or a planner writes them: XROs may name them; needs --journal and --watch")
    words.add_argument("--placements", type=Endpoint, metavar="PLACE",
                       help="where listen takes placements: LSPs by segment routing are counted; needs --sids and --stateful")
    words.add_argument("--stateful", action="store_true", help="take LSPs that are delegated; needs --watch")
    words.add_argument("--journal", metavar="FILE", help="that of listen, or its folder: by it a route that still serves is known")
    words.add_argument("--gain", type=number(0, 100, float), default=0, metavar="PERCENT",
                       help="an LSP stays where less is gained (0); needs --journal")
    words.add_argument("--calm", type=number(0, 86400, float), default=0, metavar="SECONDS",
                       help="from one such move of an LSP to the next (0); needs --journal")
    words.add_argument("--initiate", metavar="FILE",
                       help="LSPs that PCCs are to make, lines `NAME,FROM,TO,SETUP,BANDWIDTH,EXCLUDE_ANY,INCLUDE_ANY,INCLUDE_ALL`")
    words.add_argument("--mark", metavar="PREFIX",
                       help="each NAME of --initiate begins with PREFIX; an LSP by PCInitiate with that PREFIX is removed if no line "
                            "names it")
    words.add_argument("--reopen", action="store_true",
                       help="close a session once a request that had no path has one: FRR asks again in a new session alone")
    words.add_argument("--replies", metavar="FOLDER", help="keep requests and reply lines there, as `routed audit` reads them")
    words.add_argument("--metrics", type=Endpoint, metavar="PLACE", help="where figures are read, by HTTP at /metrics")
    add_names(words)
    words.add_argument("--log-level", choices=LEVELS, default="warning", help="which lines of the log are written (warning)")
    options = words.parse_args(given)
    if options.stateful and not options.watch:
        words.error("--stateful needs --watch")
    if (options.gain or options.calm or options.sids or options.srlgs) and not options.journal:
        words.error("--gain, --calm, --sids and --srlgs need --journal")
    if (options.sids or options.srlgs) and not options.watch:
        words.error("--sids and --srlgs need --watch")
    if options.mark is not None and (not options.mark or not options.initiate):
        words.error("--mark needs a PREFIX and --initiate")
    if options.require_keys and not options.keys:
        words.error("--require-keys needs --keys")
    if options.placements and not (options.sids and options.stateful):
        words.error("--placements needs --sids and --stateful")
    if options.group and not options.sids:
        words.error("--sid-group needs --sids")
    if (options.initiate or options.reopen) and not options.watch or options.initiate and not options.stateful:
        words.error("--initiate needs --stateful, and --reopen needs --watch")
    try:
        return Front(options).run()
    except NamesRefused as fault:
        return failed("pcep", fault, 2)
    except (Stopped, OSError) as fault:
        Log("pcep", options.log_level).say("error", str(fault))
        return 3
    finally:
        if options.metrics:
            options.metrics.leave()
