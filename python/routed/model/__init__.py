"""The network in rows: journals, links, requests and replies."""
from .database import Database
from .journals import read_journal
from .names import Names, NamesRefused
from .rows import Batch, Drop, Link, Mark, Refused, Reply, Request

__all__ = ["Batch", "Database", "Drop", "Link", "Mark", "Names", "NamesRefused", "Refused", "Reply", "Request", "read_journal"]
