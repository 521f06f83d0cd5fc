"""What a failure does to requests: which of them it can change, and what is said of it.

docs/run/SWEEP.md says which requests are asked again. All others keep their answer, since dropped links only take routes away:

- Links. The tests of a link look at the link alone, and a drop gives no link a reverse. So each admissible link was admissible before. A
  link of a route needs its reverse, so both directions count as on the route.
- Marks. A sweep changes no mark, so a walk passes through the same routers or through fewer.
- Hops. A router meets a hop, loose or strict, by its own address or by the local address of a link from it. A drop only takes such
  addresses away, so each hop is met by the same routers or by fewer. A strict hop keeps a route at routers that meet it or the one before
  it, so fewer routers mean fewer routes.
- The route before the drop. While its links stay its routers do, with their own addresses. The route can be cut at the same routers as
  before, unless one of them meets a hop by a dropped local address. Other routers don't matter.
- Ties. Routes of one request are in a total order (cost, number of links, local addresses) that doesn't depend on other links. So if
  the least route is still a route after the drop, it is still the least.
- `none`. A request without a route doesn't get a route by a failure, so it has no line in a scenario.
- `unknown-from`, `unknown-to`. A head-end or tail-end disappears with its last link, which is the first or the last link of the
  route, so the request is asked again. If there was no route before, it makes no difference which of these words the answer has.
"""
from __future__ import annotations

import collections
import os
from collections.abc import Callable, Container, Generator, Iterable
from typing import NamedTuple

from ..model.database import Database
from ..model.journals import read_database, records
from ..model.rows import Key, Link, Refused, Reply, Request, rank, value
from .ranking import REQUESTS
from .solving import MOST_ASKS, Question, Solve, Stopped, run

NOTHING = (0,) * 8  # asked of a link, by priority

Ask = Callable[[dict[Key, Link], list[int]], list[str]]  # what a program says of some requests, by their indexes, without some links
# The text of a scenario, the indexes of the requests that are lost and of those that get another route, how many links have too little,
# and what is asked of each link of which something else is asked than before.
Outcome = tuple[str, list[int], list[int], int, dict[Key, int]]
Outcomes = Generator[Outcome | Exception, None, None]


# What fails as one: a circuit, a link of one way or a router. It goes to other machines, as an answer of a sweep does.
Part = NamedTuple("Part", [("name", str), ("keys", tuple[Key, ...])])
# The cost and the links of a route; the word that says why there is none, cost None and no links. It goes to other machines, whose
# cloudpickle can't make a class that is written as one of NamedTuple.
Answer = NamedTuple("Answer", [("why", str | None), ("cost", int | None), ("walk", tuple[Link, ...])])


class Network:
    """The last version of a journal, with requests and their answers, which every scenario is compared with."""

    words = REQUESTS

    def __init__(self, program: str, workers: int, journal: bytes, requests: bytes) -> None:
        self.program = program
        journal += b"\n"  # the last row may be without one, and an empty line is no row
        lines = self.run_batch(journal, requests, workers)
        self.requests = read_requests(requests)
        self.unplaced: list[Request] = []  # in a book alone
        self.version = len(lines) - len(self.requests)
        self.rows = run(program, ["snapshot", "--journal", "/dev/stdin"], journal)  # short, however long the journal is
        self.database = read_database("\n".join(self.rows).encode())
        self.links = {link.key: link for link in self.database.links()}
        self.answers = self.first_answers(lines)
        self.users = self.find_users()
        self.loads: dict[Key, list[int]] = {}  # of each link that a route takes, the bandwidth asked of it at each setup priority
        for request, answer in zip(self.requests, self.answers):
            for link in answer.walk:
                self.loads.setdefault(link.key, [0] * 8)[request.setup] += request.bandwidth
        self.full = {key: found for key in sorted(self.loads, key=rank) if (found := self.overbooked(key, self.loads[key]))}
        self.idle: collections.deque[Solve] = collections.deque()  # programs that wait for a question

    def run_batch(self, journal: bytes, requests: bytes, workers: int) -> list[str]:
        """The lines of `routed batch`: the versions, and the replies to all requests while nothing is out."""
        with os.fdopen(os.memfd_create("requests"), "wb", buffering=0) as asks:
            asks.write(requests)
            words = ["batch", "--journal", "/dev/stdin", "--requests", f"/dev/fd/{asks.fileno()}", "--workers", str(workers)]
            return run(self.program, words, journal, pass_fds=[asks.fileno()])

    def first_answers(self, lines: list[str]) -> list[Answer]:
        """The answers while nothing is out."""
        versions = [f"version {at}" for at in range(1, self.version + 1)]
        if self.version < 0 or lines[:self.version] != versions:
            raise Stopped(f"{self.program} wrote {len(lines)} lines, which aren't versions and {len(self.requests)} replies")
        answers = []
        for request, line in zip(self.requests, lines[self.version:]):
            head = f"ask {request.id} v{self.version} "
            if not line.startswith(head):
                raise Stopped(f"{self.program} wrote no reply to request {request.id}: {line}")
            answers.append(self.answer_of(request, line[len(head):], frozenset()))
        return answers

    def answer_of(self, request: Request, text: str, out: Container[Key]) -> Answer:
        """The answer that is told behind the version. What is out is out in both directions, so each other link still has its reverse."""
        reply = Reply.parse(f"ask {request.id} v{self.version} {text}")
        if not reply:
            raise Stopped(f"{self.program} wrote no reply to request {request.id}: {text}")
        if reply.why:
            return Answer(reply.why, None, ())
        router = request.head
        walk: list[Link] = []
        for far in reply.fars:
            links = [link for link in self.database.usable(router, far, request, bool(walk)) if link.key not in out]
            if len(links) > 1:  # to several neighbors, since each has one link from that address
                one, other = sorted((link.neighbor for link in links), key=value)[:2]
                raise Refused(f"{one} and {other} have the same address {far}, seen from {router}")
            router = links[0].neighbor if links else ""
            walk += links
        if router != request.tail or sum(link.metric for link in walk) != reply.cost:
            raise Stopped(f"{self.program} wrote a route that the network doesn't have, to request {request.id}: {text}")
        return Answer(None, reply.cost, tuple(walk))

    def find_users(self) -> dict[Key, list[int]]:
        """By link, the indexes of the requests that may be answered otherwise without it: those whose route takes it or its reverse,
        and those that have a hop which a router of the route may meet by the link's local address alone."""
        users, links_from = collections.defaultdict(list), collections.defaultdict(list)
        for key in self.links:
            links_from[key[0]].append((key, value(key[1])))
        for index, (request, answer) in enumerate(zip(self.requests, self.answers)):
            for link in answer.walk:
                users[link.key].append(index)
                users[link.back].append(index)
            if answer.walk and (wanted := request.prefixes()):
                for router in {request.head, *(link.neighbor for link in answer.walk)}:
                    own = value(router)
                    prefixes = [(bits, shift) for bits, shift in wanted if own >> shift != bits]
                    for key, local in links_from[router] if prefixes else ():
                        if any(local >> shift == bits for bits, shift in prefixes):
                            users[key].append(index)
        return dict(users)

    def overbooked(self, key: Key, load: list[int]) -> dict[int, tuple[int, str]]:
        """By priority, what a link has too little of: what is asked of it there and at better priorities, and the words for it."""
        link, above, found = self.links[key], 0, {}
        for priority, (asked, free) in enumerate(zip(load, link.unreserved)):
            if asked and asked + above > free:
                found[priority] = asked + above, f"overbooked {link.name} priority={priority} asked={asked} above={above} unreserved={free}"
            above += asked
        return found

    def asked(self) -> dict[Key, int]:
        """What all requests with a route ask of each link."""
        return {key: sum(load) for key, load in self.loads.items()}

    def touches(self, part: Part) -> bool:
        """All failures are tried."""
        return True

    def before(self) -> list[str]:
        """The network's own lines, those before anything is out."""
        facts = [text for found in self.full.values() for _, text in found.values()]
        without = [(request, answer) for request, answer in zip(self.requests, self.answers) if answer.cost is None]
        return [f"network version={self.version} routers={len(routers_of(self.database))} links={len(self.links)} "
                f"circuits={len(circuits_of(self.database))} requests={len(self.requests)}",
                *(f"before without request {request.id} {answer.why}" for request, answer in without),
                *(f"before {fact}" for fact in facts),
                f"before routes={len(self.requests) - len(without)} without={len(without)} overbooked={len(facts)}"]

    def question(self, parts: Iterable[Part]) -> tuple[dict[Key, Link], list[int]]:
        """The links of these parts, and the indexes of the requests that may be answered otherwise without them."""
        keys = sorted({key for _, keys in parts for key in keys}, key=rank)
        return {key: self.links[key] for key in keys}, sorted({index for key in keys for index in self.users.get(key, ())})

    def ask(self, links: dict[Key, Link], indexes: list[int]) -> list[str]:
        """What a program that stays up says of these requests without these links."""
        try:
            solve = self.idle.pop()
        except IndexError:
            solve = Solve(self.program, self.rows)
        try:
            texts: list[str] = []
            for at in range(0, len(indexes), MOST_ASKS):
                requests = [self.requests[index] for index in indexes[at:at + MOST_ASKS]]
                question = Question(links, requests, solve.version)
                if not solve.has_room(len(question.rows)):
                    solve.close()
                    solve = Solve(self.program, self.rows)
                    question = Question(links, requests, solve.version)
                texts += solve.ask(question)
        except BaseException:
            solve.close()
            raise
        self.idle.append(solve)
        return texts

    def close(self) -> None:
        """Ends the programs that wait for a question."""
        while self.idle:
            self.idle.pop().close()

    def outcome(self, place: int, parts: Iterable[Part], ask: Ask | None = None) -> Outcome | Exception:
        """What happens in a scenario in which these parts are out; else the fault. A link has too little where it is overbooked and
        wasn't, or is so by more."""
        links, indexes = self.question(parts)
        try:
            texts = (ask or self.ask)(links, indexes) if indexes else []
            answers = {index: self.answer_of(self.requests[index], text, links) for index, text in zip(indexes, texts)}
        except (Refused, Stopped) as fault:
            return type(fault)(f"scenario {place}: {fault}")
        said = [f"out {name}" for name, _ in parts]
        lost: list[int] = []
        longer: dict[int, tuple[int, int]] = {}  # its costs with and without the parts
        loads: dict[Key, list[int]] = {}
        for index, new in answers.items():
            request, old = self.requests[index], self.answers[index]
            for sign, walk in ((-1, old.walk), (1, new.walk)) if new.walk != old.walk else ():
                for link in walk:
                    loads.setdefault(link.key, list(self.loads.get(link.key, NOTHING)))[request.setup] += sign * request.bandwidth
            if new.cost is None or old.cost is None:
                lost.append(index)
                said.append(f"lost request {request.id} {new.why} was={old.cost}")
            elif new.cost > old.cost:
                longer[index] = new.cost, old.cost
        said += [f"longer request {self.requests[index].id} cost={new} was={old} more={new - old}" for index, (new, old) in longer.items()]
        most = max((new - old for new, old in longer.values()), default=0)
        facts: list[str] = []
        for key in sorted(loads, key=rank):
            before = self.full.get(key, {})
            facts += [text for priority, (taken, text) in self.overbooked(key, loads[key]).items() if taken > before.get(priority, (0,))[0]]
        said += [*facts, f"lost={len(lost)} longer={len(longer)} most={most} overbooked={len(facts)}"]
        text = "\n".join(f"scenario {place} {line}" for line in said)
        return text, lost, list(longer), len(facts), {key: sum(load) for key, load in loads.items()}


def read_requests(rows: bytes) -> list[Request]:
    """The requests of rows that `routed` takes, which have different ids."""
    requests: dict[int, Request] = {}
    for place, request in enumerate(map(Request.parse, records(rows)), 1):
        if requests.setdefault(request.id, request) is not request:
            raise Refused(f"request row {place} refused: same-id")
    return list(requests.values())


def circuits_of(database: Database) -> list[Part]:
    """Two links are a circuit where each leads to the other's key. A link without such a reverse fails alone."""
    parts: list[Part] = []
    for link in database.links():
        if not database.reverse(link):
            parts.append(Part(f"link {link.name}", (link.key,)))
        elif rank(link.key) < rank(link.back):
            parts.append(Part(f"circuit {link.name}", (link.key, link.back)))
    return parts


def routers_of(database: Database) -> list[Part]:
    keys: dict[str, list[Key]] = collections.defaultdict(list)
    for link in database.links():
        keys[link.router].append(link.key)
        keys[link.neighbor].append(link.key)
    return [Part(f"router {router}", tuple(keys[router])) for router in sorted(keys, key=value)]
