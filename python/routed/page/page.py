"""Shows a running server in a browser: the network and its versions, a form that asks, why a route is as it is, and what if.

    routed-tools page --ask PLACE --watch PLACE --journal FILE [--at PLACE] [--places FILE] [--names FILE] ...

The places and the journal are those of `routed-tools listen`; of a folder the newest journal is followed. The page is at a port of
127.0.0.1 (--at, 8080), or at the path of a UNIX socket for a web server with sign-on before it. There is no sign-on here:
everybody who reaches the place sees the network and may ask. Nothing can be changed: asks alone are sent to the server.

A browser has to come by the name localhost, by an address of loopback, or by a name of --host. `ready` is printed once pages are
served, and before it, with port 0, the port that the system has chosen, as `at 127.0.0.1:43211`. SIGTERM and SIGINT end it. The
status is 0 then, 2 where a word or a file is refused, and 3 where a socket or a file can't be had.

Example: routed-tools page --ask ./ask --watch ./watch --journal day.journal
and then open http://127.0.0.1:8080 in a browser.
"""
from __future__ import annotations

import argparse
import os

from ..ask.ask import Answer
from ..ask.form import answer_of, asked_of, form_of, reasons_of
from ..ask.search import Search
from ..ask.telling import Telling
from ..front.options import mode
from ..model.groups import add_groups
from ..model.names import NamesRefused, add_names
from ..model.rows import Refused, Reply, Request
from ..net.endpoints import Endpoint, say
from ..net.log import LEVELS, Log
from ..net.loop import Stopped
from ..net.site import NotServed, Query, Site, Visit, local
from ..program import add_option, failed
from .front import Front
from .readers import Reader

MOST_PAGES = 128
STATIC = os.path.join(os.path.dirname(os.path.abspath(__file__)), "static")
FILES = {"/": ("page.html", "text/html; charset=utf-8"), "/page.js": ("page.js", "text/javascript; charset=utf-8"),
         "/page.css": ("page.css", "text/css; charset=utf-8")}
NO_ANSWER = "the server doesn't answer: it is gone, or has no place for this page's asks"


class Page:
    """What requests ask for."""

    def __init__(self, front: Front, hosts: list[str]) -> None:
        self.front = front
        calls = {f"/{call.__name__}": call for call in (self.events, self.ask, self.why, self.pin, self.unpin, self.whatif, self.at)}
        listener = front.options.at.bind(front.options.mode)
        self.port = listener.getsockname()
        self.site = Site(front.loop, listener, front.figures.text, hosts, calls,
                         lambda status: front.figures.add("routed_page_requests_total", 1, str(status)))
        self.site.read(STATIC, FILES)

    def asked(self, query: Query) -> Request:
        return asked_of({name: values[0] for name, values in query.items()}, self.front.names, self.front.groups)

    def reader(self, query: Query) -> Reader:
        """The page that a request comes from."""
        reader = self.front.readers.get(query.get("page", [""])[0])
        if reader is None:
            raise NotServed(404, "this page isn't connected any more")
        return reader

    def events(self, visit: Visit, _: Query) -> None:
        if len(self.front.readers) >= MOST_PAGES:
            raise NotServed(503, f"{MOST_PAGES} pages are open already")
        self.front.open(visit.take_over())

    def ask(self, visit: Visit, query: Query) -> None:
        request = self.asked(query)

        def answered(line: str | None) -> None:
            reply = Reply.parse(line or "")
            if line is None or reply is None:
                visit.refuse(503 if line is None else 400, line or NO_ANSWER)
                return
            network = self.front.network
            why = reasons_of(network, request) if reply.version == network.version else None
            visit.tell({**answer_of(network, request, reply, line), "why": why})

        self.front.ask(request, answered, visit)

    def why(self, visit: Visit, query: Query) -> None:
        """The reasons, as `routed-tools ask --why` says them."""
        request, telling = self.asked(query), Telling(self.front.names, self.front.groups)

        def found(answer: Answer | None) -> None:
            if answer is None:
                visit.refuse(503, f"{NO_ANSWER}; or the network changes faster than it is asked")
            else:
                lines = list(telling.lines(answer._replace(route=None), True))[2:]  # behind the row and its line
                visit.tell({"version": answer.reply.version, "lines": lines})

        Search(request, lambda one, call: self.front.ask(one, call, visit), self.front.database_at, found).go_on()

    def pin(self, visit: Visit, query: Query) -> None:
        request = self.asked(query)
        visit.tell({"pin": self.front.pins.pin(self.reader(query), request).number, "form": form_of(request)})

    def unpin(self, visit: Visit, query: Query) -> None:
        number = query.get("pin", [""])[0]
        if not number.isdigit() or len(number) > 9:
            raise Refused(f"{number!r} is no pin")
        self.front.pins.leave(self.reader(query), int(number))
        visit.tell({"pin": int(number)})

    def whatif(self, visit: Visit, query: Query) -> None:
        self.front.what_if.ask(self.reader(query), query.get("circuit", []), query.get("router", []),
                               lambda found: visit.tell(found, 503 if "refused" in found else 200))

    def at(self, visit: Visit, query: Query) -> None:
        number = query.get("version", [""])[0]
        version = self.front.network.of(int(number)) if number.isdigit() and len(number) <= 20 else None
        if version is None:
            raise NotServed(404, "this version isn't kept any more")
        visit.tell({"version": version.number, "at": version.at, "rows": self.front.network.at(version.number)})


def parser() -> argparse.ArgumentParser:
    words = argparse.ArgumentParser(prog="routed-tools page", description=__doc__, formatter_class=argparse.RawDescriptionHelpFormatter)
    words.add_argument("--ask", required=True, type=Endpoint, metavar="PLACE", help="where listen is asked")
    words.add_argument("--watch", required=True, type=Endpoint, metavar="PLACE", help="where listen tells versions")
    words.add_argument("--journal", required=True, metavar="FILE", help="that of listen, or its folder")
    words.add_argument("--at", type=local, default="8080", metavar="PLACE", help="where browsers come: a port of 127.0.0.1, or a path")
    words.add_argument("--mode", type=mode, default=0o600, help="permissions of a path, octal (600)")
    words.add_argument("--host", action="append", default=[], metavar="NAME",
                       help="a name by which browsers come beside localhost and loopback, as that of the web server before it")
    words.add_argument("--places", metavar="FILE", help="lines of a router's address, x, y and a name; routers without one are laid out")
    add_names(words)
    add_groups(words)
    words.add_argument("--log-level", choices=LEVELS, default="warning", help="which lines of the log are written (warning)")
    add_option(words)
    return words


def main(given: list[str] | None = None) -> int:
    """Takes the words of a command line, and answers the status."""
    options = parser().parse_args(given)
    front: Front | None = None
    try:
        for place in (options.ask, options.watch):
            place.look_up()
        front = Front(options)
        page = Page(front, options.host)
        front.server.connect()
        say(*([] if options.at.path else [f"at {page.port[0]}:{page.port[1]}"] if options.at.port == 0 else []), "ready")
        front.supervised.ready()
        while not front.is_over:
            front.loop.turn()
        return 0
    except (NamesRefused, ValueError) as fault:
        return failed("page", fault, 2)
    except (Stopped, OSError) as fault:
        Log("page", options.log_level).say("error", str(fault))
        return 3
    finally:
        options.at.leave()
        if front:
            front.what_if.end()
            front.layout.close()
