"""`routed solve` beside a loop, which doesn't wait for it."""
from __future__ import annotations

import collections
import os
import subprocess
from collections.abc import Callable
from dataclasses import replace

from ..model.database import Database
from ..model.rows import Key, Link, Refused, Reply, Request
from ..net.children import DIE_WITH_US
from ..net.loop import READ, WRITE, Loop
from ..net.stream import Stream
from .solving import Question, Stopped, checked, heads_of

MOST_OUT = 64  # circuits and routers
Call = Callable[[list[str]], object]  # gets what the lines of a question say after their first words


def links_out(database: Database, circuits: list[str], routers: list[str]) -> dict[Key, Link]:
    """The links that are out with these circuits, each by the key of one of its links, and with these routers."""
    if len(circuits) + len(routers) > MOST_OUT:
        raise Refused(f"at most {MOST_OUT} circuits and routers are out")
    found: dict[Key, Link] = {}
    for name in circuits:
        link = database.rows.get(tuple(name.split(" ")))
        if not isinstance(link, Link):
            raise Refused(f"the network has no link {name!r}")
        found |= {one.key: one for one in (link, database.reverse(link)) if one}
    return found | {link.key: link for link in database.links() if not {link.router, link.neighbor}.isdisjoint(routers)}


class Beside:
    """A running `routed solve` on the network that some rows make. `stopped` gets the words for why, where it ends by itself."""

    def __init__(self, loop: Loop, program: str, rows: list[str], stopped: Callable[[str], object]) -> None:
        self.program, self.stopped, self.version, self.lines = program, stopped, len(heads_of(rows)), list[str]()
        self.rows = 0  # that it was given
        self.questions: collections.deque[tuple[list[str], Call]] = collections.deque()
        (rows_out, rows_in), (lines_out, lines_in) = os.pipe(), os.pipe()
        try:
            self.child = subprocess.Popen([program, "solve"], stdin=rows_out, stdout=lines_in, stderr=subprocess.DEVNULL,
                                          preexec_fn=DIE_WITH_US)
        except BaseException:
            os.close(rows_in)
            os.close(lines_out)
            raise
        finally:
            os.close(rows_out)
            os.close(lines_in)
        self.stream = Stream(loop, lines_out, rows_in)
        self.stream.give(self, self.go_on)
        self.ask(rows, heads_of(rows), lambda said: None)

    def named(self) -> str:
        return f"{self.program} solve"

    def ask(self, rows: list[str], heads: list[str], call: Call) -> None:
        """Gives it rows, whose lines have these first words."""
        self.rows += len(rows)
        self.questions.append((heads, call))
        self.stream.write("".join(f"{row}\n" for row in rows).encode())
        self.stream.wait(True)

    def compare(self, links: dict[Key, Link], requests: list[Request], call: Callable[[list[tuple[Reply, Reply]]], object]) -> None:
        """Gives `call` the reply to each request on the network, and the one without these links. Their ids count from 1."""
        asked, version = [replace(request, id=at) for at, request in enumerate(requests, 1)], self.version
        question = Question(links, asked, version)
        self.version = question.version

        def said(texts: list[str]) -> None:
            found = [Reply.parse(f"ask 1 v1 {text}") for text in [*texts[:len(asked)], *texts[len(asked):][question.replies]]]
            replies = [reply for reply in found if reply]
            if len(replies) < len(found):
                raise Stopped(f"{self.program} has refused a row")
            call([*zip(replies, replies[len(asked):])])

        self.ask([*(request.text() for request in asked), *question.rows],
                 [*(f"ask {request.id} v{version}" for request in asked), *question.heads], said)

    def go_on(self, events: int) -> None:
        if events & WRITE:
            self.stream.flush()
        if events & READ:
            self.lines += [line.decode(errors="replace") for line in self.stream.lines()]
        while self.questions and len(self.lines) >= len(self.questions[0][0]):
            heads, call = self.questions.popleft()
            said, self.lines = self.lines[:len(heads)], self.lines[len(heads):]
            try:
                call(checked(self.program, heads, said))
            except Stopped as fault:
                self.end(str(fault))
        if self.stream.is_ended or self.stream.fault:
            self.end(f"{self.program} solve has ended")
        else:
            self.stream.wait(True)

    def end(self, why: str) -> None:
        if not self.stream.is_closed:
            self.close()
            self.stopped(why)

    def fail(self) -> None:
        self.end("an exception has ended it")

    def close(self) -> None:
        self.stream.close()
        self.child.kill()
        self.child.wait()
