"""A server that runs, as tools follow it: its versions, its answers, and the network that its journal makes."""
