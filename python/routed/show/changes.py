"""What of a network is another one now, in words."""
from __future__ import annotations

import itertools
from collections.abc import Iterable, Iterator, Mapping

from ..model.database import Database
from ..model.groups import Groups
from ..model.names import Names
from ..model.rows import Batch, Drop, Key, Link
from ..model.units import rate_text

MOST_LINES, MOST_SINGLE = 20, 5  # lines of a batch, and links whose changes are said one by one


class Changes:
    """Says what has changed, by the names of addresses and groups."""

    def __init__(self, names: Names, groups: Groups) -> None:
        self.names, self.groups = names, groups

    def of_link(self, old: Link, new: Link) -> list[str]:
        """What of a link is another one now."""
        def ends(link: Link) -> str:
            return f"{self.names.name_of(link.neighbor)} {link.remote}"

        def groups(link: Link) -> str:
            return "+".join(self.groups.names_of(link.group)) or "none"

        found = [(name, str(was), str(now)) for name, was, now in
                 (("to", ends(old), ends(new)), ("metric", old.metric, new.metric), ("groups", groups(old), groups(new)))]
        told = [f"{name} {was} > {now}" for name, was, now in found if was != now]
        pairs = list(zip(old.unreserved, new.unreserved))
        for (was, rate), priorities in itertools.groupby(range(len(pairs)), lambda at: pairs[at]):
            first, *others = priorities
            if was != rate:
                told.append(f"unreserved {rate_text(was)} > {rate_text(rate)} at {first}{f' to {others[-1]}' if others else ''}")
        return told

    def of_batch(self, batch: Batch, gone: Iterable[Link], database: Database) -> list[str]:
        """What a batch has changed, which has replaced or dropped these links and has led to this database."""
        had = {link.key: link for link in gone}
        links = [change for change in batch.changes if isinstance(change, Link)]
        found = [*self.circuits("down", [had[change.key] for change in batch.changes if isinstance(change, Drop)], had),
                 *self.circuits("up", [link for link in links if link.key not in had], database.rows),
                 *self.replaced([(had[link.key], link) for link in links if link.key in had])]
        for change in batch.changes:
            if len(change.key) == 1:
                state = "with transit again" if change.is_removal else "without transit"
                found.append(f"router {self.names.name_of(change.key[0])} {state}")
        most = MOST_LINES - 1
        return found if len(found) <= MOST_LINES else [*found[:most], f"and {len(found) - most} more"]

    def circuits(self, state: str, links: list[Link], beside: Mapping[Key, object]) -> Iterator[str]:
        """Those that came or went: as circuits where the reverse did, too."""
        keys = {link.key for link in links}
        for link in links:
            back = beside.get(link.back)
            if isinstance(back, Link) and back.back == link.key and back.key in keys:
                if link.key < back.key:
                    yield f"circuit {state}: {self.ends(link)}"
            else:
                yield f"link {state}: {self.ends(link)}"

    def replaced(self, pairs: list[tuple[Link, Link]]) -> Iterator[str]:
        """Those that are other ones now: a few one by one, and many by what of them has changed."""
        changed = [(old, new) for old, new in pairs if old != new]
        if len(changed) <= MOST_SINGLE:
            yield from (f"{self.ends(new)}: {', '.join(self.of_link(old, new))}" for old, new in changed)
        else:
            for what, name in (("far end", "back"), ("metric", "metric"), ("groups", "group"), ("bandwidth", "unreserved")):
                if count := sum(getattr(old, name) != getattr(new, name) for old, new in changed):
                    yield f"{what} of {count} {'link' if count == 1 else 'links'}"
        if same := len(pairs) - len(changed):
            yield f"{same} {'link' if same == 1 else 'links'} as before"

    def ends(self, link: Link) -> str:
        return f"{self.names.name_of(link.router)} {link.local} to {self.names.name_of(link.neighbor)} {link.remote}"
