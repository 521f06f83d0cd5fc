"""What requests are answered at each version, by tests/reference/formats.py."""
import re

from reference.formats import Network


class Versions:
    """The replies to requests at each version of a network, from the text of its updates."""

    def __init__(self, updates, asks):
        self.asks = asks
        self.texts = [""]  # of the batches up to each version
        network = Network()
        self.replies = [self.at(network, 0)]
        rows = ""
        for row in updates.splitlines(keepends=True):
            fields, rows = row.strip().split(","), rows + row
            if fields[0] == "end":
                self.texts.append(rows)
                self.replies.append(self.at(network, int(fields[1])))
            else:
                network.change(fields)

    def at(self, network, version):
        return [network.reply(version, ask) for ask in self.asks]

    def are_right(self, lines):
        """Whether each line is the reply to its request at the version that it names; the requests come round again."""
        for at, line in enumerate(lines):
            named = re.match(r"\w+ \d+ v(\d+) ", line)
            if not named or int(named[1]) >= len(self.replies) or line != self.replies[int(named[1])][at % len(self.asks)]:
                return False
        return True

    def recorded(self, journal):
        """How many whole batches a journal of this run holds, the last line feed aside, None where it isn't a beginning of the updates."""
        if not self.texts[-1].startswith(journal):
            return None
        return sum(len(text.rstrip("\n")) <= len(journal) for text in self.texts) - 1
