"""What a growing file has got since the last look."""
from __future__ import annotations

import os
from typing import IO


class Tail:
    """The lines that a growing file has got since the last look. A file that is replaced is read from its beginning. Of a folder it is
    the newest journal that wasn't rejected."""

    def __init__(self, path: str) -> None:
        self.path, self.unread = path, b""
        self.file: IO[bytes] | None = None
        self.rejected: set[tuple[int, int]] = set()

    def lines(self) -> tuple[bool, list[str]]:
        """Whether the file is another one than before, and its new lines."""
        try:
            path = newest(self.path, self.rejected) if self.file is None else self.file.name
            found, had = os.stat(path), os.fstat(self.file.fileno()) if self.file else None
            is_new = self.file is None or had is None or not os.path.samestat(found, had) or found.st_size < self.file.tell()
            if is_new or self.file is None:
                self.close()
                self.file = open(path, "rb")
            data = self.unread + self.file.read()
            *lines, self.unread = data.split(b"\n")
        except OSError:
            return False, []
        return is_new, [line.decode("ascii", "replace") for line in lines]

    def reject(self) -> None:
        """This isn't the file. Of a folder the next look takes another one, and all of them again once none is left."""
        if os.path.isdir(self.path):
            if self.file:
                found = os.fstat(self.file.fileno())
                self.rejected.add((found.st_dev, found.st_ino))
            elif self.rejected:
                self.rejected.clear()
            self.close()

    def close(self) -> None:
        if self.file:
            self.file.close()
        self.file, self.unread = None, b""


def newest(path: str, rejected: set[tuple[int, int]]) -> str:
    """The newest journal of a folder that isn't rejected; what is no folder is itself."""
    if not os.path.isdir(path):
        return path
    found = [(entry.stat(), entry.path) for entry in os.scandir(path) if entry.name.endswith(".journal")]
    left = [(one.st_mtime_ns, name) for one, name in found if (one.st_dev, one.st_ino) not in rejected]
    return max(left, default=(0, path))[1]
