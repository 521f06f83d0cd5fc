"""Streams of rows and lines that bench/serve and bench/book write and read: pipes, connections to sockets, and direct connections."""
import os
import socket
import sys


def stop(text):
    sys.exit(f"bench/{os.path.basename(sys.argv[0])}: {text}")


class Stream:
    """Both ends of the pipes of a stream: rows are written, and lines are read."""

    def __init__(self, name):
        self.name = name
        self.their_rows, self.rows = os.pipe()
        self.lines, self.their_lines = os.pipe()

    def hand_over(self):
        """Closes what the program has now."""
        os.close(self.their_rows)
        os.close(self.their_lines)

    def close(self):
        os.close(self.rows)
        os.close(self.lines)

    def say(self, data):
        try:
            while data:
                data = data[os.write(self.rows, data):]
        except OSError as error:
            stop(f"{self.name}: write: {error.strerror}")

    def line(self):
        """The line of the one row that isn't answered yet."""
        data = b""
        while not data.endswith(b"\n"):
            if not (more := os.read(self.lines, 1 << 18)):
                stop(f"{self.name}: ended before its line")
            data += more
        return data


class Connection(Stream):
    """A connection to a UNIX socket."""

    def __init__(self, path):
        self.name, self.socket = path, socket.socket(socket.AF_UNIX)
        self.socket.connect(path)
        self.rows = self.lines = self.socket.fileno()

    def close(self):
        self.socket.close()


class Direct(Stream):
    """A direct connection, and the two ends that come with it."""

    def __init__(self, path):
        self.name, self.socket = path, socket.socket(socket.AF_UNIX)
        self.socket.connect(path)
        word, (self.rows, self.lines), *_ = socket.recv_fds(self.socket, 64, 2)
        if word != b"direct 1\n":
            stop(f"{path}: {word}")

    def close(self):
        super().close()
        self.socket.close()
