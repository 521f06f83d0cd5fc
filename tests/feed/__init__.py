"""Tests of the feed, beside a router that is played here."""
