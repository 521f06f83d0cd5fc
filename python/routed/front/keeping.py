"""What routed-tools listen has where its server keeps a book, and how the run begins."""
from __future__ import annotations

import argparse
import os
import stat
from collections.abc import Callable

from ..net.endpoints import tried
from ..net.loop import READ, Loop, Stopped
from ..net.stream import Stream
from .booked import BookAccount
from .books import Books
from .placing import Placing
from .sharing import AGAIN, MEMORY, Sharing

EXPECTED = b"batch 0 refused: expected "  # the number of the next batch of the base
LACKING = b"batch 0" + MEMORY


class Keeping:
    """The server's stream of rows, its texts, and the connections that place."""

    def __init__(self, loop: Loop, server: Stream, account: BookAccount, options: argparse.Namespace) -> None:
        self.account, self.options = account, options
        self.sharing = Sharing(loop, server, account)
        self.updates = self.sharing.share()
        self.texts = Books(loop, options.program, account, options.begin, self.sharing)
        self.placing = Placing(loop, self.sharing, account, self.texts, self.updates, options.placings)
        self.is_begun = False

    def words(self) -> list[str]:
        """Those of the server's command line."""
        begin = self.options.begin
        if begin:
            with tried(f"{begin}: read"):
                if stat.S_ISFIFO(os.stat(begin).st_mode):
                    raise Stopped(f"{begin}: a pipe can't be read again, as the line `book` needs")
        return ["--book", "--keep", self.options.keep, *(["--begin", begin] if begin else [])]

    def begin(self, begun: Callable[[int], object]) -> None:
        """Calls this with the first version once the server has read what it begins with."""
        over = b""

        def told(said: bytes, version: int) -> None:
            nonlocal over
            over += said
            if over.endswith(LACKING):
                over = over.removesuffix(LACKING)
                self.sharing.loop.after(AGAIN, ask)
            else:
                self.take(over, version)
                begun(version)

        def ask() -> None:
            self.sharing.ask(b"end,0,0\n", told)

        ask()

    def take(self, said: bytes, version: int) -> None:
        """Takes the lines of the beginning: what is counted too much, and the number of the base's next batch."""
        account, self.is_begun = self.account, True
        *over, last = said.splitlines()
        if not last.startswith(EXPECTED):
            raise Stopped(f"{self.options.begin}: {last.decode(errors='backslashreplace')}")
        account.base, account.first, account.version = int(last[len(EXPECTED):]) - 1, version, version
        for line in over:
            account.log.say("warning", f"{self.options.begin}: {line.decode()}")
            account.add_over(line.split(b" "))
        self.texts.want(version, self.sharing.loop.of(None), account.take_beginning)

    def read_rest(self) -> None:
        """Reads what a server that has ended has written. Says why the beginning was refused, if it was."""
        while not self.sharing.server.is_ended:
            self.sharing.go_on(READ)
        if not self.is_begun and (turn := self.sharing.turn):
            for line in turn.text().splitlines():
                self.account.log.say("error", f"{self.options.begin}: {line.decode(errors='backslashreplace')}")
