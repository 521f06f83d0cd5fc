"""A network of FRR routers on one machine, and the chain from an OSPF event to an answer."""
