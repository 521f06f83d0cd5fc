"""What a sweep says, computed from the routes of tests/reference/formats.py and the books of tests/reference/books.py."""
import itertools
from fractions import Fraction

from reference import pairs
from reference.formats import address_number, address_text
from reference.runs import publish, requests_of, whole_batches


def name_of(links, key):
    return " ".join(address_text(number) for number in (*key, links[key]["to"], links[key]["remote"]))


def failing_of(network, fail):
    """How many circuits there are, and the scenarios: of each the failures, by what is said of them and the keys of their links."""
    links = {key: network.links[key] for key in sorted(network.links)}
    ends = {key: (each["to"], each["remote"]) for key, each in links.items()}
    whole = {frozenset((key, end)) for key, end in ends.items() if ends.get(end) == key}
    circuits = sorted([sorted(keys) for keys in whole] + [[key] for key in links if not any(key in keys for keys in whole)])
    if fail == "routers":
        failing = [[(f"router {address_text(router)}", [key for key in links if router in (key[0], links[key]["to"])])]
                   for router in sorted(network.routers())]
    else:
        named = [(f"{'circuit' if len(keys) == 2 else 'link'} {name_of(links, keys[0])}", keys) for keys in circuits]
        failing = [[part] for part in named] if fail == "circuits" else list(itertools.combinations(named, 2))
    return len(circuits), failing


def used_lines(network, capacities, before, scenarios):
    """The lines of utilisation: of capacities by keys, of what is asked of each link before a failure, and of scenarios, each with what is
    out, the keys of it, and what is asked of each link."""
    links, rows = network.links, []

    def used(key, asked):
        return Fraction(capacities[key] - links[key]["free"][7] + asked.get(key, 0), capacities[key])

    def text(part):
        thousandths = -((-part * 1000) // 1)
        return f"{thousandths // 1000}.{thousandths % 1000:03}"

    for key in capacities:
        begun = used(key, before)
        found = [(used(key, asked), place, out) for place, (out, keys, asked) in enumerate(scenarios, 1) if key not in keys]
        worst, place, out = min(((begun, 0, ""), *found), key=lambda it: (-it[0], it[1]))
        why = f" scenario {place} out {out}" if place else ""
        said = f"{name_of(links, key)} capacity={capacities[key]} before={text(begun)} worst={text(worst)}{why}"
        rows.append((-worst, -begun, key, said))
    yield from (f"utilisation {rank} {said}" for rank, (*_, said) in enumerate(sorted(rows), 1))
    over = [sum(row[at] < -1 for row in rows) for at in (1, 0)]
    yield f"capacities={len(rows)} without={len(links) - len(rows)} before={over[0]} worst={over[1]}"


def asked_of(pairs):
    """What is asked of each link, by pairs of a bandwidth and a route."""
    asked = {}
    for bandwidth, walk in pairs:
        for each in walk or ():
            key = each["from"], each["local"]
            asked[key] = asked.get(key, 0) + bandwidth
    return asked


def partner_lines(network, requests, walks):
    """The lines of partners, of requests with a route."""
    counts = dict.fromkeys(pairs.KINDS, 0)
    for request, walk in zip(requests, walks):
        for kind in pairs.KINDS if walk is not None else ():
            found = pairs.outcome(network, request, kind)
            if not isinstance(found, str):
                counts[kind] += 1
                cost, was = (sum(each["metric"] for each in links) for links in ([*found[0], *found[1]], walk))
                said = f"pair cost={cost} was={was} more={cost - was}"
            elif found.startswith("each by "):
                router, local = map(address_number, found.removeprefix("each by ").split(","))
                said = f"by {name_of(network.links, (router, local))}"
            else:
                said = found.removeprefix("each ")
            yield f"before partner {kind} request {request['id']} {said}"
    yield f"before partners circuits={counts['circuits']} routers={counts['routers']}"


def plain(rows, asks, fail, capacities=None, has_partners=False):
    """What a sweep says, from the routes of tests/reference/formats.py as they are, with no object read and each request asked in each
    scenario."""
    network, requests = publish(whole_batches(rows))[0][-1], requests_of(asks)
    version = len(whole_batches(rows))
    links = {key: network.links[key] for key in sorted(network.links)}

    def name(key):
        return name_of(links, key)

    def answers(out):
        left = type(network)({key: found for key, found in links.items() if key not in out}, network.marks)
        walks = [left.least(request) for request in requests]
        return [(walk is None and left.answer(0, request).split(" ", 3)[3], walk) for request, walk in zip(requests, walks)]

    def overbooked(found):
        """By link and priority, what is asked there and above, and its words."""
        full = {}
        for key in links:
            taken = [(request["setup"], request["bandwidth"]) for request, (_, walk) in zip(requests, found)
                     for each in walk or () if (each["from"], each["local"]) == key]
            for priority in sorted({setup for setup, _ in taken}):
                asked = sum(bandwidth for setup, bandwidth in taken if setup == priority)
                above = sum(bandwidth for setup, bandwidth in taken if setup < priority)
                free = links[key]["free"][priority]
                if asked + above > free:
                    said = f"overbooked {name(key)} priority={priority} asked={asked} above={above} unreserved={free}"
                    full[key, priority] = asked + above, said
        return full

    def cost(walk):
        return sum(each["metric"] for each in walk)

    circuits, failing = failing_of(network, fail)
    base = answers(())
    before, without = overbooked(base), [(request, word) for request, (word, walk) in zip(requests, base) if walk is None]
    yield f"network version={version} routers={len(network.routers())} links={len(links)} circuits={circuits} requests={len(requests)}"
    yield from (f"before without request {request['id']} {word}" for request, word in without)
    yield from (f"before {fact}" for _, fact in before.values())
    yield f"before routes={len(requests) - len(without)} without={len(without)} overbooked={len(before)}"
    if has_partners:
        yield from partner_lines(network, requests, [walk for _, walk in base])
    totals, done, loads = [0, 0, 0], [], []
    for place, scenario in enumerate(failing, 1):
        out = {key for _, keys in scenario for key in keys}
        found = answers(out)
        loads.append((" and ".join(part for part, _ in scenario), out, asked_of(
            (request["bandwidth"], walk) for request, (_, walk) in zip(requests, found))))
        both = [(request["id"], old, word, new) for request, (_, old), (word, new) in zip(requests, base, found) if old is not None]
        lost = [f"lost request {at} {word} was={cost(old)}" for at, old, word, new in both if new is None]
        longer = [(at, cost(new), cost(old)) for at, old, _, new in both if new is not None and cost(new) > cost(old)]
        full = [fact for at, (taken, fact) in overbooked(found).items() if at not in before or taken > before[at][0]]
        most = max([new - old for _, new, old in longer], default=0)
        done.append((place, [request for request, (_, old), (_, new) in zip(requests, base, found) if old is not None and new is None],
                     [request for at, _, _ in longer for request in requests if request["id"] == at],
                     " and ".join(part for part, _ in scenario)))
        for fact in (*(f"out {part}" for part, _ in scenario), *lost,
                     *(f"longer request {at} cost={new} was={old} more={new - old}" for at, new, old in longer), *full,
                     f"lost={len(lost)} longer={len(longer)} most={most} overbooked={len(full)}"):
            yield f"scenario {place} {fact}"
        totals = [total + bool(counted) for total, counted in zip(totals, (lost, longer, full))]
    yield from plain_ranking(done)
    yield f"scenarios={len(failing)} lost={totals[0]} longer={totals[1]} overbooked={totals[2]}"
    if capacities is not None:
        before = asked_of((request["bandwidth"], walk) for request, (_, walk) in zip(requests, base))
        yield from used_lines(network, capacities, before, loads)


def plain_ranking(done, one="request", other="longer"):
    """The ranked lines, from all scenarios: each its place, the requests that are lost, those that get longer, and what is out."""
    def bandwidth(lost):
        return sum(request["bandwidth"] for request in lost)

    def lines(kind, order):
        for rank, (place, lost, longer, out) in enumerate(order[:10], 1):
            yield f"most {kind} {rank} scenario {place} lost={len(lost)} {other}={len(longer)} bandwidth={bandwidth(lost)} out {out}"

    yield from lines(f"{one}s", sorted((each for each in done if each[1] or each[2]), key=lambda each: (-len(each[1]), -len(each[2]))))
    yield from lines("bandwidth", sorted((each for each in done if each[1]),
                                         key=lambda each: (-bandwidth(each[1]), -len(each[1]), -len(each[2]))))
    counts = [(request["id"], sum(request in each[1] for each in done), sum(request in each[2] for each in done))
              for request in {request["id"]: request for each in done for request in each[1] + each[2]}.values()]
    for rank, (at, lost, longer) in enumerate(sorted(counts, key=lambda each: (-each[1] - each[2], -each[1], each[0]))[:10], 1):
        yield f"most failures {rank} {one} {at} lost={lost} {other}={longer}"
