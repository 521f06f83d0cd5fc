"""Sockets: the event loop, where programs connect, and the log."""
