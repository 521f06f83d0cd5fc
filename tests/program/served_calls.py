"""Calls of `routed serve --book` over whole streams, and what they have to give, by tests/reference/served_books.py."""
import os
import subprocess

from program.compact_books import latin
from program.known_books import held
from reference.served_books import Run


class Served:
    """Calls whose files are in one folder, which each call finds empty. The only client asks nothing."""

    def __init__(self, program, room):
        self.program, self.room = program, room

    def path(self, name):
        return os.path.join(self.room, name)

    def words(self, begin=None):
        words = [self.program.path, "serve", "--book", "--client", f"/dev/null={self.path('out')}"]
        for name in ("keep", "journal"):
            words += [f"--{name}", self.path(name)]
        if begin is not None:
            with open(self.path("begin"), "wb") as file:
                file.write(latin(begin))
            words += ["--begin", self.path("begin")]
        return words

    def run(self, rows, begin=None, **how):
        """The status, standard output and standard error, what is kept, and the journal. A file that isn't made has nothing."""
        ran = subprocess.run(self.words(begin), input=latin(rows), capture_output=True, timeout=600, **how)
        texts = {}
        for name in os.listdir(self.room):
            texts[name] = held(self.path(name))
            os.remove(self.path(name))
        said = ran.stderr + texts.get("out", b"")  # that client has no lines
        return ran.returncode, ran.stdout, said, texts.get("keep", b""), texts.get("journal", b"")


def texts_of(run):
    """What a call has to give that is this run of the reference."""
    return run.status, latin(run.lines), b"", latin(run.kept), latin(run.journal)


def wanted_of(rows, begin=None, *limits):
    """What a call over these rows has to give. The limits are how many bytes the two files take."""
    return texts_of(Run(*(latin(text or "").decode("latin-1") for text in (rows, begin)), *limits))
