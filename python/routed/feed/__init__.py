"""The feed: rows of a live network, from the OSPF API of one of its routers."""
