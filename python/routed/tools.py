"""Runs one of the tools round `routed`.

    routed-tools TOOL ...

`routed-tools TOOL --help` says what a tool takes. Those that run `routed` find it by --program, else by the environment
variable ROUTED_PROGRAM, else on PATH, else where the source tree builds it.
"""
from __future__ import annotations

import difflib
import errno
import importlib
import os
import signal
import sys

from .program import PIPE_CLOSED, VERSION, failed

TOOLS = {
    "listen": (".front.listen", "sockets in front of `routed serve`, for programs that come and go"),
    "connect": (".front.connect", "standard input and output at a socket of listen"),
    "ask": (".ask.ask", "one request by names and units, and why it has no route"),
    "beside": (".ask.beside", "the row that asks for a path beside that of a reply, without its circuits and their SRLGs"),
    "show": (".show.show", "the network of a running server as a table, and what changed in it"),
    "status": (".front.status", "one screen of the figures of listen, pcep, page or a feed"),
    "audit": (".audit", "`routed audit`, and how far it is"),
    "feed": (".feed.command", "rows of a live network, from the OSPF API of one of its routers or by BGP-LS"),
    "pcep": (".pcep.command", "routers ask by PCEP"),
    "page": (".page.page", "a running server in a browser: its network, its versions, and a form that asks"),
    "book-report": (".show.book_report", "the tunnels of a book, and its links by what is left"),
    "sweep": (".sweep.sweep", "what the failure of each circuit, router or pair of circuits does to requests or tunnels"),
    "join": (".sweep.join", "one sweep of its parts"),
    "draw": (".pictures.draw", "a picture of a network, with the routes of replies"),
    "draw-failures": (".pictures.draw_failures", "a picture of what circuits' failures do"),
    "draw-circuit": (".pictures.draw_circuit", "a picture of what a link has left from version to version, and of the replies that use it"),
    "import": (".imports.importer", "rows of a network in the format of SNDlib, or in GraphML"),
    "completion": (".completion", "what bash, zsh or fish need to complete the words of routed-tools"),
    "why": (".why", "three small networks, asked of FRR's cspf and of `routed solve`"),
}


def usage() -> str:
    """The text of --help."""
    return f"{__doc__}" + "\n" + "".join(f"  {name:14} {what}\n" for name, (_, what) in TOOLS.items())


def main(words: list[str] | None = None) -> int:
    """Runs the tool that the first word names with the others, and answers its status."""
    name, *rest = (sys.argv[1:] if words is None else words) or [""]
    try:
        return ended(run(name, rest))
    except SystemExit as end:  # argparse has said why
        return ended(end.code if isinstance(end.code, int) else 0 if end.code is None else 1)
    except KeyboardInterrupt:
        return ended(128 + signal.SIGINT)
    except BrokenPipeError:
        return ended(PIPE_CLOSED)


def run(name: str, rest: list[str]) -> int:
    if name in ("-h", "--help"):
        print(usage(), end="")
        return 0
    if name == "--version" or name in TOOLS and rest == ["--version"]:
        print(f"routed-tools {VERSION}")
        return 0
    if name not in TOOLS:
        near = difflib.get_close_matches(name, TOOLS, 1)
        what = f"{name!r} is no tool" + (f", {near[0]} is one" if near else "") if name else "a tool is wanted"
        print(f"routed-tools: {what}: {', '.join(TOOLS)}", file=sys.stderr)
        return 2
    return importlib.import_module(TOOLS[name][0], __package__).main(rest)


def ended(status: int) -> int:
    """The status, behind all that is written. What can't be written is dropped, so that Python doesn't try again at its end."""
    for stream, number in ((sys.stdout, 1), (sys.stderr, 2)):
        try:
            if stream:
                stream.flush()
        except OSError as fault:
            os.dup2(os.open(os.devnull, os.O_WRONLY), number)
            if number == 1 and fault.errno == errno.EPIPE:
                status = PIPE_CLOSED
            elif number == 1:
                status = status or failed("routed-tools", f"standard output: {fault.strerror}")
    return status
