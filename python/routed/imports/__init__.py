"""Rows from networks in other programs' formats."""
