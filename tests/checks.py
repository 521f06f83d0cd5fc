"""What passed and what failed, and the last line that says it. Who imports this finds the tools of this tree, too."""
import argparse
import os
import signal
import sys
import traceback

TOP = os.path.dirname(os.path.dirname(os.path.abspath(__file__)))
TOOLS = os.path.join(TOP, "tools/routed-tools")
sys.path.insert(1, os.path.join(TOP, "python"))
from reference.shortened import shortened

if signal.getsignal(signal.SIGINT) is signal.SIG_IGN:  # as a shell leaves it to what runs in the background, but Ctrl-C is tested
    signal.signal(signal.SIGINT, signal.default_int_handler)

MOST_SHORTENED = 3  # streams of a part
MOST_SHOWN = 2000  # characters of a stream that was made short


class Checks:
    """Each check that fails is printed with what was wanted and what came. With `only`, checks of other names aren't counted."""

    def __init__(self, only=""):
        self.passed = 0
        self.failed = 0
        self.only = only
        self.shortened = 0  # streams that differed

    def same(self, name, found, wanted):
        if not name.startswith(self.only):
            return
        if found == wanted:
            self.passed += 1
            return
        self.failed += 1
        print(f"FAILED {name}\n  wanted {short(wanted)}\n  found  {short(found)}")

    def true(self, name, test, found=""):
        self.same(name, (bool(test), found if not test else ""), (True, ""))

    def fail(self, text):
        self.failed += 1
        print(f"FAILED {text}")

    def stream(self, name, rows, found, wanted):
        """What `found` makes of rows is what `wanted` does. Where it isn't, the fewest rows that were found to differ are printed, too.
        That takes many runs, so it is done for the first few streams alone."""
        one, other = found(rows), wanted(rows)
        if one == other or not name.startswith(self.only) or self.shortened == MOST_SHORTENED:
            self.same(name, one, other)
            return
        self.shortened += 1
        least = shortened(rows, lambda some: found(some) != wanted(some))
        self.fail(f"{name}\n  wanted {short(other)}\n  found  {short(one)}\n  shortest {short(least, MOST_SHOWN)}\n"
                  f"  wanted of it {short(wanted(least))}\n  found of it  {short(found(least))}")

    def part(self, name, call, *given):
        """Runs a part. One that raises has failed, with its traceback; what it had checked before counts, and the other parts go on."""
        try:
            call(*given)
        except (Exception, SystemExit):
            self.fail(f"{name}: {traceback.format_exc().rstrip()}")

    def chosen(self, calls):
        """The functions of a part that are run, in turn: all of them, or that one alone whose name `only` is. All its checks count then."""
        before = self.only
        named = [call for call in calls if call.__name__ == before]
        try:
            for call in named or calls:
                self.only = "" if named else before
                yield call
        finally:
            self.only = before

    def parts(self, calls, *given):
        """Runs functions of a part that are given the same."""
        for call in self.chosen(calls):
            self.part(call.__name__, call, *given)

    def parts_in(self, room, calls, *given):
        """The same, and each function is given a folder of its own, too."""
        for call in self.chosen(calls):
            inner = os.path.join(room, call.__name__)
            os.mkdir(inner)
            self.part(call.__name__, call, *given, inner)

    def met(self, part):
        """Has failed where no check of the part has the name that is asked for."""
        if self.only and not self.passed + self.failed:
            self.fail(f"{part}: no check has a name that begins with {self.only!r}")

    def end(self):
        """Prints the last line, and ends with status 1 where anything failed."""
        print(f"{self.passed} passed, {self.failed} failed")
        sys.exit(1 if self.failed else 0)


def short(value, most=600):
    text = repr(value)
    return text if len(text) < most else f"{text[:most // 2]} .. {text[-most // 2:]}"


ONLY = ("one part, or those of its checks whose names begin with CHECK: the part is run, and its other checks aren't counted; where CHECK "
        "is the name of a function that the part consists of, that function is run alone, with all its checks")


def add_only(parser, parts):
    """The option --only of a command that has these parts. It gives a part's name and CHECK; without it None and an empty text."""
    names = [part.__name__ for part in parts]

    def read(text):
        name, _, check = text.partition("/")
        if name not in names:
            raise argparse.ArgumentTypeError(f"there is no part {name!r}: {', '.join(names)}")
        return name, check

    parser.add_argument("--only", type=read, default=(None, ""), metavar="PART[/CHECK]", help=f"{ONLY} ({', '.join(names)})")
