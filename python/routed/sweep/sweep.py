"""Takes circuits or routers out of a network in turn, and says what that does to a file of requests or to the tunnels of a book.

    routed-tools sweep JOURNAL REQUESTS [--fail pairs] [--pairs] [--capacity FILE] [--names FILE] [--json | --csv]
    routed-tools sweep --book BOOK .. [--fail pairs] [--capacity FILE] [--names FILE] [--json | --csv]

It lists the requests that lose their route or get a costlier one, and the links that become overbooked, or more overbooked than
before. `routed batch` answers all requests once. In a scenario `routed solve` answers those that the failure can change. With
--pairs the lines before the scenarios say which routes have a partner, a second way that shares no circuit, or no router.

With --book it lists the tunnels that lose their route, which of them find another one when they are placed again one after the
other, and the links that are full then. Only failures that touch a tunnel are tried. Each scenario is a run of `routed book`.

A line of --capacity is a router, the address of its interface and the capacity of this link, as in `1.1.1.1 10.0.0.1 10G`. Then the
last lines say for each link which part of its capacity is used, before a failure and in the worst scenario.
"""
from __future__ import annotations

import argparse
import contextlib
import hashlib
import itertools
import math
import multiprocessing
import os
import re
import signal
import sys
from collections.abc import Generator, Iterator
from multiprocessing.connection import Connection

from ..model.advice import not_rows, why_torn
from ..model.books import read_rows
from ..model.names import Names, add_names
from ..model.rows import Refused
from ..program import add_option, failed, find
from .capacities import Utilisation, capacities
from .failures import Network, Outcomes, circuits_of, routers_of
from .machines import Scenario, Scenarios, over_dask, over_ssh
from .partners import partner_lines
from .planned import Planned
from .progress import Progress
from .ranking import Ranking
from .solving import Stopped
from .telling import Facts, in_csv, in_json, in_lines


def work(given: Network | Planned, scenarios: Scenarios, at: int, jobs: int, readers: list[Connection], results: Connection) -> None:
    """One of the jobs: the scenario at this index, and then every Nth one, where N is the number of jobs."""
    signal.signal(signal.SIGINT, signal.SIG_DFL)  # which ends the sweep, and says what there is to say
    for reader in readers:
        reader.close()  # so that a job whose results nobody takes any more ends
    with contextlib.suppress(BrokenPipeError), contextlib.closing(given):
        for place, parts in itertools.islice(scenarios(), at, None, jobs):
            results.send(given.outcome(place, parts))


def over_jobs(jobs: int, given: Network | Planned, scenarios: Scenarios) -> Outcomes:
    """The scenarios' outcomes, in their order. A job that is ahead of the others waits once its pipe is full."""
    fork = multiprocessing.get_context("fork")
    readers: list[Connection] = []
    try:
        for at in range(jobs):
            reader, writer = fork.Pipe(duplex=False)
            readers.append(reader)
            fork.Process(target=work, args=(given, scenarios, at, jobs, readers, writer)).start()
            writer.close()
        for (place, _), reader in zip(scenarios(), itertools.cycle(readers)):
            try:
                yield reader.recv()
            except EOFError:
                raise Stopped(f"scenario {place}: its job was ended") from None
    finally:
        for reader in readers:
            reader.close()


def sweep(asked: argparse.Namespace, given: Network | Planned, used: Utilisation | None) -> Generator[str, None, None]:
    """The lines, one scenario after the other."""
    parts = routers_of(given.database) if asked.fail == "routers" else circuits_of(given.database)
    size, counts, ranking = 2 if asked.fail == "pairs" else 1, [0, 0, 0], Ranking(given.words)
    (part, of), untouched = asked.part or (1, 1), sum(not given.touches(part) for part in parts)
    whole = math.comb(len(parts), size) - math.comb(untouched, size)
    places = range(whole * (part - 1) // of, whole * part // of)

    def scenarios() -> Iterator[Scenario]:
        tried = (some for some in itertools.combinations(parts, size) if any(map(given.touches, some)))
        return itertools.islice(enumerate(tried, 1), places.start, places.stop)

    yield "\n".join([*given.before(), *(partner_lines(given) if asked.pairs and isinstance(given, Network) else ())])
    if isinstance(given, Planned):
        outcomes = over_jobs(asked.jobs, given, scenarios)
    elif asked.dask:
        outcomes = over_dask(asked.dask, given, scenarios, len(places))
    elif asked.ssh:
        outcomes = over_ssh(asked.ssh, asked.jobs, given, scenarios, len(places), size * max((len(part.keys) for part in parts), default=0))
    else:
        outcomes = over_jobs(asked.jobs, given, scenarios)
    with contextlib.closing(outcomes), Progress(len(places)) as progress:
        for found, (place, out) in zip(outcomes, scenarios()):
            if isinstance(found, Exception):
                raise found
            text, lost, others, full, changed = found
            progress.make_room()
            yield text
            progress.step()
            counts = [total + bool(some) for total, some in zip(counts, (lost, others, full))]
            touched = ([given.requests[index] for index in some] for some in (lost, others))
            name = " and ".join(name for name, _ in out)
            ranking.add(place, name, *touched)
            if used:
                used.add(place, name, changed)
    yield from ranking.lines()
    name = f"part {part}/{of} input={asked.input} " if asked.part else ""
    yield f"{name}scenarios={len(places)} lost={counts[0]} {given.words.other}={counts[1]} {given.words.full}={counts[2]}"
    if used:
        yield from used.lines()


def ended(*_: object) -> None:
    """At SIGTERM the jobs and their programs end, too."""
    for job in multiprocessing.active_children():
        job.terminate()
    sys.exit(128 + signal.SIGTERM)


def count(text: str) -> int:
    if not re.fullmatch("[1-9][0-9]?", text) or int(text) > 64:
        raise argparse.ArgumentTypeError(f"{text!r} is no number from 1 to 64")
    return int(text)


def address(text: str) -> str:
    if not re.fullmatch(r"(tcp|tls)://\S+:[0-9]+", text):
        raise argparse.ArgumentTypeError(f"{text!r} is no address of a scheduler as tcp://HOST:8786")
    return text


def part(text: str) -> tuple[int, int]:
    found = re.fullmatch("([1-9][0-9]{0,5})/([1-9][0-9]{0,5})", text)
    if not found or int(found[1]) > int(found[2]):
        raise argparse.ArgumentTypeError(f"{text!r} is no part I/N, with I from 1 to N")
    return int(found[1]), int(found[2])


def options(words: list[str] | None) -> argparse.Namespace:
    asked = argparse.ArgumentParser(prog="routed-tools sweep", description=__doc__, formatter_class=argparse.RawDescriptionHelpFormatter)
    asked.add_argument("journal", nargs="?", metavar="JOURNAL", help="a clean journal; its last version is the network")
    asked.add_argument("requests", nargs="?", metavar="REQUESTS", help="ask rows with different ids")
    asked.add_argument("--book", nargs="+", metavar="BOOK", help="files of rows of `routed book`, which are read in this order; - is "
                                                                 "standard input. They take the place of JOURNAL and REQUESTS")
    asked.add_argument("--capacity", metavar="FILE", help="lines of a link and its capacity, with units as in 2.5G, 400M, 64k and 125MB")
    add_names(asked)
    form = asked.add_mutually_exclusive_group()
    form.add_argument("--json", action="store_true", help="print one line of JSON")
    form.add_argument("--csv", action="store_true", help="print a table of CSV with a header: a row for each effect of a failure")
    asked.add_argument("--fail", choices=["circuits", "routers", "pairs"], default="circuits",
                       help="what is out in a scenario: a circuit, a router or two circuits; by default a circuit")
    asked.add_argument("--pairs", action="store_true",
                       help="say of each route whether there are two ways that share no circuit, or no router, and what there is in common")
    asked.add_argument("--workers", type=count, metavar="N", help="threads that answer while nothing is out, by default 1")
    asked.add_argument("--jobs", type=count, metavar="N", help="scenarios at once, each in a process, by default 1")
    asked.add_argument("--dask", type=address, metavar="ADDRESS", help="scenarios on the workers of this scheduler of Dask's distributed")
    asked.add_argument("--ssh", metavar="LOGINS",
                       help="scenarios on these machines by GNU parallel, given as for its -S; --jobs at once on each")
    asked.add_argument("--part", type=part, metavar="I/N", help="only the I-th of N parts of the scenarios, for join")
    add_option(asked)
    given = asked.parse_args(words)
    given.program = find(given.program)
    if os.sep in given.program:
        given.program = os.path.abspath(given.program)  # it is the same path on each machine
    if given.dask and (given.ssh or given.jobs):
        asked.error("with --dask there is neither --ssh nor --jobs: the scheduler's workers say how many scenarios are worked on at once")
    if given.book and (given.journal or given.workers or given.dask or given.ssh):
        asked.error("a book is swept on this machine: with --book there is no JOURNAL, and neither --workers, --dask nor --ssh")
    if given.book and given.pairs:
        asked.error("pairs are asked for by requests: with --book there is no --pairs")
    if not given.book and given.requests is None:
        asked.error(f"the following arguments are required: {'requests' if given.journal else 'journal, requests'}, or --book")
    if given.part and (given.book or given.capacity or given.json or given.csv):
        asked.error("join reads plain lines of requests: with --part there is neither --book, --capacity, --json nor --csv")
    given.jobs, given.workers = given.jobs or 1, given.workers or 1
    return given


def rows_of(path: str) -> bytes:
    """The bytes of a file, which may be rows."""
    rows = read_rows([path])
    if told := not_rows(rows):
        raise Refused(f"{path}: {told}")
    return rows


def network_of(asked: argparse.Namespace) -> Network | Planned:
    """What is swept."""
    if asked.book:
        return Planned(asked.program, b"".join(map(rows_of, asked.book)))
    journal, requests = rows_of(asked.journal), rows_of(asked.requests)
    asked.input = hashlib.sha256(b"\0".join((journal, requests, asked.fail.encode()))).hexdigest()[:16]
    try:
        return Network(asked.program, asked.workers, journal, requests)
    except Refused as fault:
        raise Refused(f"{fault}: {why_torn(journal)}" if str(fault).startswith("journal torn after ") else str(fault)) from None


def main(words: list[str] | None = None) -> int:
    """Takes the words of a command line, and answers the status."""
    asked = options(words)
    signal.signal(signal.SIGTERM, ended)
    try:
        names = Names.read(asked.names)
        given = network_of(asked)
        used = Utilisation(capacities(asked.capacity, names, given.links), given.links, given.asked()) if asked.capacity else None
        with contextlib.closing(sweep(asked, given, used)) as chunks:
            facts = Facts(names, [*given.requests, *given.unplaced])
            for text in (in_json(chunks, facts, given.words) if asked.json else in_csv(chunks, facts) if asked.csv
                         else in_lines(chunks, names)):
                print(text, end="", flush=True)
    except (Refused, Stopped, OSError) as fault:
        return failed("sweep", fault, 3 if isinstance(fault, Stopped) else 1)
    return 0
