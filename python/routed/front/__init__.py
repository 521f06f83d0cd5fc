"""`routed-tools listen`, sockets in front of `routed serve`; and what reads from it: connect and status."""
