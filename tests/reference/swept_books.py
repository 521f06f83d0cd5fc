"""What a sweep of a book says, by tests/reference/books.py: a book is made, and in each scenario a copy of it meets the failure."""
import copy

from reference import books, formats
from reference.books import key_of
from reference.sweeps import asked_of, failing_of, name_of, plain_ranking, used_lines


def made_of(rows):
    """The book of rows of which none is refused, and the ids that were placed last without a route and have no placement."""
    book, changes, unplaced = books.Book(), [], set()
    for fields in formats.records(rows):
        kind, content = books.row(fields)
        if kind in ("put", "drop", "node"):
            changes.append((kind, content))
        elif kind == "end":
            open_ones, changes = changes, []
            book.end(open_ones, content)
        elif kind in ("place", "held"):
            if kind == "place":
                book.place(content)
            else:
                book.restore(content["request"], content["route"])
            placed = {placement.request["id"] for placement in book.placements}
            unplaced = (unplaced | {content["id"]}) - placed
        elif kind == "release":
            book.release(content["id"])
    return book, unplaced


def cost(base, placement):
    """What a route cost when it was placed. That of a held row costs what it does in the base, None where the base hasn't all its links."""
    links = [link if "metric" in link else base.links.get(key_of(link)) for link in placement.route]
    if any(link is None or link["to"] != old["to"] for link, old in zip(links, placement.route)):
        return None
    return sum(link["metric"] for link in links)


def full_of(book, least):
    """The links with less left at priority 7 than this, and the words for each."""
    counts, found = books.counted(book.placements), {}
    for key, link in sorted(books.effective(book.base, book.placements).links.items()):
        if link["free"][7] < least:
            found[key] = (f"full {name_of(book.base.links, key)} unreserved={book.base.links[key]['free'][7]} "
                          f"counted={counts.get(key, books.NOTHING)[7]} left={link['free'][7]}")
    return found


def plain_book(rows, fail, capacities=None):
    """The lines of a sweep of a book."""
    book, unplaced = made_of(rows)
    at_first = {placement.request["id"]: placement for placement in book.placements}
    asked = [content for kind, content in map(books.row, formats.records(rows)) if kind == "place"]
    wanted = {request["id"]: request for request in asked if request["id"] in unplaced}
    wanted |= {name: placement.request for name, placement in at_first.items()}
    least = min((request["bandwidth"] for request in wanted.values() if request["bandwidth"]), default=1)
    stale = sorted(name for name, placement in at_first.items() if not books.admits(book.base, placement))
    circuits, failing = failing_of(book.base, fail)
    full = full_of(book, least)
    taken = {key for name, placement in at_first.items() if name not in stale for old in placement.route
             for link in (book.base.links[key_of(old)],) for key in (key_of(link), (link["to"], link["remote"]))}
    tried = [scenario for scenario in failing if taken & {key for _, keys in scenario for key in keys}]
    yield (f"network version={book.version} routers={len(book.base.routers())} links={len(book.base.links)} circuits={circuits} "
           f"tunnels={len(at_first) + len(unplaced)}")
    yield from (f"before without tunnel {name}" for name in sorted(unplaced))
    yield from (f"before lost tunnel {name}" for name in stale)
    yield from (f"before {words}" for words in full.values())
    yield f"before placed={len(at_first)} without={len(unplaced)} lost={len(stale)} full={len(full)}"
    totals, done, loads = [0, 0, 0], [], []
    for place, scenario in enumerate(tried, 1):
        out = {key for _, keys in scenario for key in keys}
        own, said, gone, again = copy.copy(book), [], [], []
        drops = [("drop", {"from": key[0], "local": key[1]}) for key in sorted(out)]
        lines = own.end(drops, {"number": book.batches + 1, "count": len(drops)})
        for name in [int(line.split()[1]) for line in reversed(lines) if line.startswith("lost ")]:
            before, was = at_first[name], cost(book.base, at_first[name])
            try:
                line = own.place(before.request)
                word = line.split()[3]
            except formats.Refused as words:
                word = str(words)
            if word == "route":
                now = next(placement for placement in own.placements if placement.request["id"] == name)
                more = cost(own.base, now) - was
                again.append((before.request, more))
                said.append(f"placed tunnel {name} cost={was + more} was={was} more={more}")
            else:
                gone.append(before.request)
                said.append(f"lost tunnel {name} {word} was={was}")
        fuller = [words for key, words in full_of(own, least).items() if key not in full]
        most = max([more for _, more in again] + [0])
        what = " and ".join(part for part, _ in scenario)
        for words in (*(f"out {part}" for part, _ in scenario), *said, *fuller,
                      f"lost={len(gone)} placed={len(again)} most={most} full={len(fuller)}"):
            yield f"scenario {place} {words}"
        totals = [total + bool(some) for total, some in zip(totals, (gone, again, fuller))]
        done.append((place, gone, [request for request, _ in again], what))
        loads.append((what, out, counts_of(own)))
    yield from plain_ranking(done, "tunnel", "placed")
    yield f"scenarios={len(tried)} lost={totals[0]} placed={totals[1]} full={totals[2]}"
    if capacities is not None:
        yield from used_lines(book.base, capacities, counts_of(book), loads)


def counts_of(book):
    return asked_of((placement.request["bandwidth"], placement.route) for placement in book.placements)
