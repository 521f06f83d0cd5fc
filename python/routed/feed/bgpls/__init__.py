"""The feed from BGP-LS (RFC 9552): a session, its messages, the TLVs that rows are made of, and the network."""
