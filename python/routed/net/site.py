"""A site over HTTP for the browsers of one machine: its files, and the requests that it answers at once or later.

A request's Host has to be localhost, an address of loopback, or a name that is given: a script of another site, whose name leads here,
reads nothing then. What may start something asks for a token, which the site's own pages alone have: a picture or a form of another site
starts nothing. GET and HEAD are answered alone."""
from __future__ import annotations

import argparse
import ipaddress
import json
import os
import re
import secrets
import socket
import urllib.parse
from collections.abc import Callable, Collection, Mapping

from ..model.rows import Refused
from . import http
from .endpoints import Endpoint, tried
from .loop import Loop
from .stream import Stream

MOST, SECONDS = 256, 30  # requests that are answered at once, and the time that one has
MOST_FIELDS = 100  # of a query
PLAIN, JSON = "text/plain; charset=utf-8", "application/json"
POLICY = ("default-src 'none'; script-src 'self'; style-src 'self'; connect-src 'self'; img-src 'self' data:; base-uri 'none'; "
          "form-action 'none'; frame-ancestors 'none'")
FIELDS = (f"Content-Security-Policy: {POLICY}\r\nX-Content-Type-Options: nosniff\r\nReferrer-Policy: no-referrer\r\n"
          "Cross-Origin-Resource-Policy: same-origin\r\nCache-Control: no-store\r\n")
STATUS = {200: "OK", 400: "Bad Request", 403: "Forbidden", 404: "Not Found", 405: "Method Not Allowed", 409: "Conflict",
          503: "Service Unavailable"}
HOST = re.compile(r"(\[[0-9a-fA-F:.]+\]|[^\[\]:,\s]+)(?::[0-9]{1,5})?")

Query = dict[str, list[str]]


def local(text: str) -> Endpoint:
    """A place for the browsers of one machine: a path, or a port of loopback."""
    place = Endpoint(text)
    if not place.path and place.address[0] not in ("127.0.0.1", "::1", "localhost"):
        raise argparse.ArgumentTypeError("there is no sign-on, so this is a port of 127.0.0.1, or a path for a web server before it")
    return place


class NotServed(Exception):
    """A request that is refused, by this status and for these words."""

    def __init__(self, status: int, words: str) -> None:
        super().__init__(words)
        self.status = status


class Site(http.Page):
    """The site. It has files by their paths, each of a kind, and calls by theirs, which get a visit and its query and need the token.
    Files may be read without it."""

    most, seconds = MOST, SECONDS

    def __init__(self, loop: Loop, listener: socket.socket, figures: Callable[[], str], hosts: Collection[str],
                 calls: Mapping[str, Callable[[Visit, Query], object]], answered: Callable[[int], object]) -> None:
        self.hosts, self.calls, self.answered, self.token = {host.lower() for host in hosts}, calls, answered, secrets.token_hex(16)
        self.files: dict[str, tuple[str, bytes]] = {}
        super().__init__(loop, listener, figures)

    def read(self, folder: str, files: Mapping[str, tuple[str, str]]) -> None:
        """Reads files of a folder: by their paths, each with its name and its kind. `{{TOKEN}}` in them becomes the token."""
        for path, (name, kind) in files.items():
            place = os.path.join(folder, name)
            with tried(f"{place}: read"), open(place, "rb") as file:
                self.files[path] = kind, file.read().replace(b"{{TOKEN}}", self.token.encode())

    def take(self, stream: Stream) -> None:
        Visit(self, stream)
        self.change(1)

    def is_ours(self, host: str) -> bool:
        """Whether a request's Host is a name of this machine, or one that was given."""
        found = HOST.fullmatch(host)
        name = found[1].lower().strip("[]") if found else ""
        try:
            return name in self.hosts or name == "localhost" or ipaddress.ip_address(name).is_loopback
        except ValueError:
            return False


class Visit(http.Reading):
    """One request, and its answer."""

    def __init__(self, site: Site, stream: Stream) -> None:
        super().__init__(site, stream)
        self.site, self.is_head = site, False
        stream.loop.after(http.SECONDS, self.look)

    def named(self) -> str:
        return "a request to the page"

    def look(self) -> None:
        """Ends one whose head isn't whole."""
        if not self.is_asked:
            self.close()

    def answer(self) -> None:
        request = http.request_of(self.asked)
        if isinstance(request, bytes):
            self.site.answered(int(request.split()[1]))
            self.say(request)
        elif request:
            self.is_head = request.is_head
            self.attempt(request)

    def attempt(self, request: http.Request) -> None:
        """Serves a request. What that refuses is the answer."""
        try:
            self.serve(request)
        except NotServed as fault:
            self.refuse(fault.status, str(fault))
        except Refused as fault:
            self.refuse(409 if str(fault).startswith("busy") else 400, str(fault))

    def serve(self, request: http.Request) -> None:
        site = self.site
        if not site.is_ours(request.fields.get("host", "")):
            raise NotServed(400, "this site has another name: see --host of routed-tools page")
        if request.path in site.files:
            self.send(200, *site.files[request.path])
        elif request.path == "/metrics":
            self.send(200, http.TYPE, site.text().encode())
        elif request.path not in site.calls:
            raise NotServed(404, "there is no such page")
        elif self.is_head:
            raise NotServed(405, "this is read by GET")
        else:
            try:
                query = urllib.parse.parse_qs(request.query, keep_blank_values=True, max_num_fields=MOST_FIELDS)
            except ValueError:
                raise NotServed(400, f"a query has at most {MOST_FIELDS} fields") from None
            token = query.get("token", [""])[0].encode()
            if request.fields.get("sec-fetch-site") == "cross-site" or not secrets.compare_digest(token, site.token.encode()):
                raise NotServed(403, "this comes from another site, or from a page of an earlier start: load the page again")
            site.calls[request.path](self, query)

    def refuse(self, status: int, words: str) -> None:
        self.tell({"refused": words}, status)

    def tell(self, found: Mapping[str, object], status: int = 200) -> None:
        """Answers by JSON."""
        self.send(status, JSON, json.dumps(found).encode())

    def send(self, status: int, kind: str, body: bytes) -> None:
        if not self.is_over and not self.is_answered:
            self.site.answered(status)
            self.say(http.answer(f"{status} {STATUS[status]}", body, FIELDS, self.is_head, kind))

    def go_off(self) -> None:
        if not self.is_over:  # else its connection is somebody else's
            super().go_off()

    def take_over(self) -> Stream:
        """Its connection, which isn't one of a request any more."""
        self.is_over = True
        self.site.change(-1)
        return self.stream
