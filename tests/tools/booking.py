"""Runs of `routed-tools listen --placements`, and what is sent to them."""
import os

from tools.fronts import Connection, Front

FREE = ",".join(["100"] * 8)
ENDS = [("1.1.1.1", "10.0.12.1", "2.2.2.2", "10.0.12.2"), ("2.2.2.2", "10.0.23.1", "3.3.3.3", "10.0.23.2")]
LINKS = [",".join(it) for one in ENDS for it in (one, one[2:] + one[:2])]
BASE = "".join(f"put,{link},5,0x00000001,{FREE}\n" for link in LINKS)
LOW = f"put,{LINKS[0]},5,0x00000001,{','.join(['100'] * 7)},10\n"
ENDED_BOOK = "book end\n"
ROUTE = "0a000c0102020202"  # from 1.1.1.1 to 2.2.2.2


def place(number, bandwidth=10, ends="1.1.1.1,2.2.2.2", hold=7):
    return f"place,{number},{ends},{hold},{bandwidth},0x0,0x0,0x0,\n"


def held(number, bandwidth=10):
    return f"held,{number},1.1.1.1,2.2.2.2,7,{bandwidth},0x00000000,0x00000000,0x00000000,,{ROUTE}\n"


class Booked(Front):
    """A run of routed-tools listen with a book."""

    def __init__(self, program, room, *more, begin=None, **how):
        self.room, self.keep = room, os.path.join(room, "keep")
        words = [word for name in ("placements", "show", "metrics", "watch") for word in (f"--{name}", os.path.join(room, name))]
        if begin is not None:
            with open(os.path.join(room, "begin"), "w", encoding="latin-1") as file:
                file.write(begin)
            words += ["--begin", os.path.join(room, "begin")]
        super().__init__(program, room, "--keep", self.keep, *words, *more, **how)

    def connect(self, name="placements"):
        return Connection(os.path.join(self.room, name))

    def kept_rows(self):
        with open(self.keep, encoding="latin-1") as file:
            return file.read()


def until(taken, last):
    """The lines of a connection up to one."""
    lines = [taken.lines.next()]
    while lines[-1] and not lines[-1].startswith(last):
        lines.append(taken.lines.next())
    return "".join(lines)


def asked(taken, line, last=ENDED_BOOK):
    """What is read for `book` or `snapshot`."""
    taken.say(f"{line}\n")
    return until(taken, (last, f"{line} refused: "))
