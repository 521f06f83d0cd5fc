"""Tools round the path computation server `routed`; `routed-tools` runs them. A program asks the server by `Client`."""
from .client import Client
from .model.pairs import PairReply
from .model.rows import Refused, Reply, Request

__all__ = ["Client", "PairReply", "Refused", "Reply", "Request"]
