"""Tests of the built program `routed`."""
