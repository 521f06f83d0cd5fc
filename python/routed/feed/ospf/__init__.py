"""The OSPF API of a router, its LSAs, and the feed of both."""
