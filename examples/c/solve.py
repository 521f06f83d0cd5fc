#!/usr/bin/env python3
"""Answers rows as `routed solve` does, by the library for C.

    examples/c/solve.py LIBRARY < FILE

LIBRARY is a shared object of the library (docs/run/C.md says how to make it). Each line is given by itself.
"""
import ctypes
import sys

ANSWERED = 0


class Handle(ctypes.Structure):
    """Holds a session or none."""

    _fields_ = [("session", ctypes.c_void_p)]


class Session:
    """A database, its open changes, and the rows that led to it."""

    def __init__(self, path):
        self.library = ctypes.CDLL(path)
        self.library.routed_open.restype = ctypes.c_uint32
        self.library.routed_rows.restype = ctypes.c_uint32
        self.library.routed_rows.argtypes = [ctypes.c_void_p, ctypes.c_char_p, ctypes.c_size_t, ctypes.c_void_p]
        self.library.routed_end.restype = ctypes.c_uint32
        self.library.routed_lines.restype = ctypes.c_size_t
        self.library.routed_lines.argtypes = [ctypes.c_void_p, ctypes.c_void_p, ctypes.c_size_t]
        self.handle = Handle(None)
        self.size = ctypes.c_size_t()
        self.ask(self.library.routed_open(ctypes.byref(self.handle)))

    def __enter__(self):
        return self

    def __exit__(self, *fault):
        self.library.routed_close(ctypes.byref(self.handle))

    def ask(self, code):
        if code != ANSWERED:
            raise MemoryError("the session is closed")

    def lines(self):
        """The lines of the call before."""
        buffer = ctypes.create_string_buffer(self.size.value + 1)
        copied = self.library.routed_lines(ctypes.byref(self.handle), buffer, self.size.value)
        return buffer.raw[:copied]

    def rows(self, rows):
        """Gives rows, and answers their lines."""
        self.ask(self.library.routed_rows(ctypes.byref(self.handle), rows, len(rows), ctypes.byref(self.size)))
        return self.lines()

    def end(self):
        """The last line, were there no more rows."""
        self.ask(self.library.routed_end(ctypes.byref(self.handle), ctypes.byref(self.size)))
        return self.lines()


def main():
    if len(sys.argv) != 2:
        sys.exit(__doc__)
    with Session(sys.argv[1]) as session:
        for row in sys.stdin.buffer:
            sys.stdout.buffer.write(session.rows(row))
        sys.stdout.buffer.write(session.end())


if __name__ == "__main__":
    main()
