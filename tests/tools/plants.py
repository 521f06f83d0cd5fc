"""Runs of the tools in whose code exceptions are raised as a test says (tests/tools/planted.py)."""
import os
import re
import sys

HERE = os.path.dirname(os.path.abspath(__file__))
PLANTED = os.path.join(HERE, "planted.py")
AT = "|".join(str(at) for at, line in enumerate(open(PLANTED, encoding="utf-8"), 1) if "raise Planted" in line)
ENDED = rf"ended by an exception, Planted at {re.escape(PLANTED)}:(?:{AT})(?:, called at routed/[\w/]+\.py:\d+)?: of two lines"


def plant(room, *lines):
    with open(os.path.join(room, "plant"), "w", encoding="ascii") as file:
        file.write("".join(f"{line}\n" for line in lines))


def planted(room, tool):
    """The words of a tool in which exceptions are planted."""
    return sys.executable, PLANTED, os.path.join(room, "plant"), tool


def left(room):
    with open(os.path.join(room, "plant"), encoding="ascii") as file:
        return file.read()
