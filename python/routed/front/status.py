"""Prints one screen of the figures of a running `routed-tools listen`, `pcep`, `page` or feed.

    routed-tools status PLACE [--watch SECONDS] [--names FILE]

PLACE is that of --metrics, or that of --at of a page. With --names an address among the figures is called by its name. The status
is 0, or 1 where the figures can't be read, with a line that says why. With --watch this line is printed in place of the figures,
and they are read again after the time of --watch.
"""
from __future__ import annotations

import argparse
import re
import sys
import time
from collections.abc import Iterator

from ..model.names import Names, NamesRefused, add_names
from ..net.endpoints import Endpoint
from ..net.http import Unread, get
from ..program import failed, number

Figures = dict[tuple[str, "str | None"], float]
SAMPLE = re.compile(r'(\w+)(?:\{(\w+)="((?:[^"\\]|\\.)*)"\})? (\S+)')
CLEAR = "\x1b[H\x1b[J"


def read(place: Endpoint) -> Figures:
    """The figures at a place: the numbers by their names and a label's value."""
    try:
        return {(found[1], found[3]): float(found[4]) for line in get(place).splitlines() if (found := SAMPLE.fullmatch(line))}
    except ValueError as fault:
        raise Unread(f"a figure is no number: {fault}") from None


def listing(figures: Figures, name: str, names: Names) -> str:
    """The numbers of a name that aren't 0, each behind its label's value."""
    found = sorted((names.name_of(value), number) for (each, value), number in figures.items() if each == name and value and number)
    return ", ".join(f"{value} {number:,.0f}" for value, number in found) or "none"


def share(figures: Figures, part: float) -> str:
    """The seconds within which this part of all rows had their lines: the edge of a bucket."""
    whole = figures.get(("routed_ask_seconds_count", None), 0)
    edges = sorted((float(edge), count) for (name, edge), count in figures.items() if edge and name == "routed_ask_seconds_bucket")
    edge = next((edge for edge, count in edges if count >= part * whole), float("inf"))
    return "none yet" if not whole else "more than 10 s" if edge == float("inf") else f"{edge * 1000:g} ms"


def screen(figures: Figures, names: Names) -> Iterator[tuple[str, str]]:
    """The lines of the screen."""
    def listed(name: str) -> str:
        return listing(figures, name, names)

    def one(name: str) -> float | None:
        return figures.get((name, None))

    def number(name: str) -> str:
        return "none" if one(name) is None else f"{one(name):,.0f}"

    def age(name: str) -> str:
        return "never" if one(name) is None else f"{one(name):,.1f} s ago"

    if one("routed_feed_links") is not None:
        yield "router", "connected" if one("routed_feed_connected") else "not connected"
        yield "heard", age("routed_feed_heard_age_seconds")
        yield "version", number("routed_feed_version")
        yield "links", f"{number('routed_feed_links')}, and {number('routed_feed_marks')} routers without transit"
        yield "left out", listed("routed_feed_left_out")
        yield "refused batches", listed("routed_feed_refused_batches_total")
    if one("routed_pcep_sessions") is not None:
        yield "server", "connected" if one("routed_pcep_connected") else "not connected"
        yield "journal", "followed" if one("routed_pcep_journal_followed") else "not followed"
        if one("routed_pcep_run") is not None:
            yield "run", number("routed_pcep_run")
        yield "version", number("routed_pcep_version")
        yield "sessions", f"{number('routed_pcep_sessions')} up, {number('routed_pcep_sessions_ended_total')} ended"
        yield "LSPs", f"{number('routed_pcep_lsps')} delegated, {number('routed_pcep_lsps_without_route')} without a route"
        yield "LSPs by PCC", listed("routed_pcep_lsps_of_pcc")
        yield "LSPs at fault", listed("routed_pcep_lsps_at_fault")
        yield "requests", listed("routed_pcep_requests_total")
        yield "moves", listed("routed_pcep_moves_total")
        yield "updates", listed("routed_pcep_updates_total")
        yield "errors sent", listed("routed_pcep_errors_total")
        yield "errors of PCCs", listed("routed_pcep_refused_by_pccs_total")
        yield "turned away", listed("routed_pcep_turned_away_total")
        yield "lost replies", number("routed_pcep_replies_lost")
    if one("routed_page_open") is not None:
        yield "server", "connected" if one("routed_page_connected") else "not connected"
        yield "journal", "followed" if one("routed_page_journal_followed") else "not followed"
        yield "version", number("routed_page_version")
        yield "pages", f"{number('routed_page_open')} open, {number('routed_page_pinned')} asks pinned"
        yield "asks", listed("routed_page_asks_total")
        yield "requests", listed("routed_page_requests_total")
        yield "skipped versions", number("routed_page_versions_skipped_total")
    if one("routed_version") is not None:
        if one("routed_run") is not None:
            yield "run", number("routed_run")
        yield "version", f"{number('routed_version')}, {number('routed_versions_left')} left"
        yield "last batch", age("routed_last_batch_age_seconds")
        yield "journal", (f"{number('routed_journal_bytes')} bytes, {number('routed_changes_total')} changes, "
                          f"{number('routed_journal_rows_left')} rows left")
        if one("routed_placings_left") is not None:
            yield "placements", (f"{number('routed_placements')} over {number('routed_placement_links')} links, "
                                 f"{number('routed_lost_placements')} lost, {number('routed_over_bandwidths')} links and priorities over")
            yield "placings", f"{number('routed_placings_left')} versions left, refused: {listed('routed_refused_placings_total')}"
            yield "kept rows", f"{number('routed_kept_rows_total')}, {number('routed_keep_bytes')} bytes"
        yield "asks", listed("routed_asks_total")
        yield "time of a row", f"by the relay, half within {share(figures, 0.5)}, 99 of 100 within {share(figures, 0.99)}"
        yield "rows", f"{number('routed_rows_total')} of clients, {number('routed_client_refused_rows_total')} refused"
        yield "sessions", f"{number('routed_sessions_total')} ended"
        yield "refused rows", listed("routed_refused_rows_total")
        yield "refused batches", listed("routed_refused_batches_total")
        yield "connections", listed("routed_connections")
        yield "busy", listed("routed_busy_total")
        yield "cut off", listed("routed_cut_off_total")
        yield "dropped log lines", number("routed_log_dropped_total")


def main(words: list[str] | None = None) -> int:
    """Takes the words of a command line, and answers the status."""
    asked = argparse.ArgumentParser(prog="routed-tools status", description=__doc__, formatter_class=argparse.RawDescriptionHelpFormatter)
    asked.add_argument("place", type=Endpoint, metavar="PLACE", help="a path, a port, ADDRESS:PORT or [ADDRESS]:PORT, as of --metrics")
    asked.add_argument("--watch", type=number("number of seconds", 0.1, 86400, float), metavar="SECONDS",
                       help="print it again and again, after so many seconds each")
    add_names(asked)
    given = asked.parse_args(words)
    try:
        names = Names.read(given.names)
    except NamesRefused as fault:
        return failed("status", fault, 2)
    while True:
        status = show(given.place, bool(given.watch), names)
        if not given.watch:
            return status
        time.sleep(given.watch)


def show(place: Endpoint, is_watched: bool, names: Names) -> int:
    """Prints the screen, or why there is none."""
    begin = CLEAR if is_watched and sys.stdout.isatty() else ""
    try:
        text = "".join(f"{name:18} {what}\n" for name, what in screen(read(place), names))
        if not text:
            raise Unread("no figures of routed are there")
    except Unread as fault:
        print(begin, end="", flush=True)
        return failed("status", f"{place.text}: {fault}", advice=advice_of(str(fault)))
    print(begin + text, end="", flush=True)
    return 0


def advice_of(why: str) -> str:
    """What to do where the figures can't be read."""
    if "No such file" in why:
        return "start the server with --metrics, or give the place that it was given"
    return "" if "refused" in why or "Permission" in why else "give the place of --metrics of listen, pcep or a feed, or that of a page"
