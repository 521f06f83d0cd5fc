"""Routers ask by PCEP: a path computation element (RFC 5440, 8231, 8281, 8408, 8664) in front of `routed-tools listen`."""
