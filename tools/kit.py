"""What `rt`, the command of the Rattle kit on the path, can do, as its help says. Kits with one logic differ in that."""
import re
import subprocess
import sys
from typing import NamedTuple

STOPPED = 2  # the status of rt where it judged nothing
# A line of the help that begins with a command, or with several and | between them, and the words that follow by single spaces.
COMMAND = re.compile(r"\s*(?:usage: )?rt ([a-z][a-z|-]*)((?: \S+)*)")
KEPT = re.compile(r"(?<!nothing )\b(?:is|are) kept\b", re.IGNORECASE)


class Kit(NamedTuple):
    takes_names: bool  # `rt ci NAME ..` proves these crates and those below them alone
    takes_anew: bool  # `rt ci --anew` takes nothing over from earlier runs
    keeps: bool  # what passed under `rt ci` is kept for later runs, also those in other folders
    has_must_fail: bool  # `rt must-fail NAME` tries the edits of a crate alone


def kit_of(text):
    """What a help says. A line that begins with a command describes it, with all lines up to the next such line or an empty one."""
    entries = [((), "", [])]
    for line in text.splitlines():
        found = COMMAND.match(line)
        if found or not line.strip():
            entries.append((found[1].split("|"), found[2], []) if found else ((), "", []))
        entries[-1][2].append(line)
    of_ci = [(words, " ".join(" ".join(lines).split())) for commands, words, lines in entries if "ci" in commands]
    takes_names = any(re.search(r"\b(?:NAME|CRATE)", words) for words, _ in of_ci)
    takes_anew = any("--anew" in described for _, described in of_ci)
    keeps = takes_anew or any(KEPT.search(described) for _, described in of_ci)
    return Kit(takes_names, takes_anew, keeps, any("must-fail" in commands for commands, _, _ in entries))


def asked():
    """What the kit on the path can do. Without one the caller ends with status 2."""
    try:
        ran = subprocess.run(["rt", "help"], stdin=subprocess.DEVNULL, stdout=subprocess.PIPE, stderr=subprocess.STDOUT, text=True,
                             errors="replace")
    except OSError as fault:
        print(f"rt, the command of the Rattle kit, can't be run: {fault.strerror}", file=sys.stderr)
        sys.exit(STOPPED)
    return kit_of(ran.stdout)
