"""Tests of PCEP: sessions without sockets, and routers played at real ones."""
