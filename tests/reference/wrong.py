"""Wrong programs, books, compactions and servers of books: the reference with one rule turned. What compares programs with it has to tell
each apart."""
from reference import (wrong_compacts, wrong_counts, wrong_held, wrong_limits, wrong_lines, wrong_networks, wrong_rows, wrong_runs,
                       wrong_served, wrong_shown)
from reference.turning import turned

RULES, LIMITS = (wrong_rows, wrong_networks, wrong_runs), (wrong_limits,)


def programs(rules):
    """Pairs of what a wrong program does and its module."""
    return turned(rules, "formats", "runs")


def books():
    """Pairs of what a wrong book does and its module."""
    return turned((wrong_counts, wrong_lines, wrong_held, wrong_shown), "books")


def compactions():
    """Pairs of what a wrong compaction does and its module."""
    return turned((wrong_compacts,), "compacts")


def servers():
    """Pairs of what a wrong server of a book does and its module."""
    return turned((wrong_served,), "served_books")
