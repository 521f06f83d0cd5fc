"""Tests of the tools round `routed`, as their users run them."""
