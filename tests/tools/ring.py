"""A ring of four routers, what its failures do to four requests, worked by hand, and runs of `routed-tools sweep`."""
import os
import re
import subprocess
import sys
import tempfile
import textwrap

from checks import TOOLS

SWEEP = [TOOLS, "sweep"]
MASKS = "0x0,0x0,0x0"


def link(router, local, neighbor, remote, metric=10, group="0x1", free=100):
    return f"put,{router},{local},{neighbor},{remote},{metric},{group},{','.join([str(free)] * 8)}\n"


def circuit(one, other, metric=10, group="0x1", free=100):
    """Both directions between the routers of these numbers, the lower first."""
    ends = [(f"{number}.{number}.{number}.{number}", f"10.0.{one}{other}.{number}") for number in (one, other)]
    return link(*ends[0], *ends[1], metric, group, free) + link(*ends[1], *ends[0], metric, group, free)


def journal(*puts):
    rows = "".join(puts)
    return f"{rows}end,1,{len(rows.splitlines())}\n"


def ask(name, head, tail, setup=7, bandwidth=60, masks=MASKS, hops=""):
    return f"ask,{name},{head},{tail},{setup},{bandwidth},{masks},{hops}\n"


A, B, C, D = "1.1.1.1", "2.2.2.2", "3.3.3.3", "4.4.4.4"
AB, AD, BC, CD = (f"circuit {one}.{one}.{one}.{one} 10.0.{one}{two}.{one} {two}.{two}.{two}.{two} 10.0.{one}{two}.{two}"
                  for one, two in ((1, 2), (1, 4), (2, 3), (3, 4)))
RING = journal(circuit(1, 2), circuit(2, 3), circuit(3, 4), circuit(1, 4, 15, "0x2"))
# A book of it. Tunnel 5 is restored on the longer way, 6 with more than there is, and 8 on a link that isn't there. Three rows only look.
RESTORED = f"""{RING}held,5,{A},{C},0,60,{MASKS},,0a000e01040404040a00220403030303
place,7,{A},{C},0,30,{MASKS},
held,6,{A},{B},7,80,{MASKS},,0A000C0102020202
offer,9,{A},{C},0,1,{MASKS},
show,7
left,{A},10.0.12.1
held,8,{A},{B},0,0,{MASKS},,0a00630102020202
"""
ASKS = ask(1, A, C) + ask(2, A, B, setup=3) + ask(3, D, A, bandwidth=30, masks="0x0,0x2,0x0") + ask(4, A, C, bandwidth=101)
FULL = "priority=7 asked=60 above=60 unreserved=100"
A_TO_B = f"overbooked {A} 10.0.12.1 {B} 10.0.12.2 {FULL}"
BEFORE = f"""network version=1 routers=4 links=8 circuits=4 requests=4
before without request 4 none
before {A_TO_B}
before routes=3 without=1 overbooked=1
"""
RANKED = f"""most requests 1 scenario 2 lost=1 longer=0 bandwidth=30 out {AD}
most requests 2 scenario 1 lost=0 longer=2 bandwidth=0 out {AB}
most requests 3 scenario 3 lost=0 longer=1 bandwidth=0 out {BC}
most bandwidth 1 scenario 2 lost=1 longer=0 bandwidth=30 out {AD}
most failures 1 request 1 lost=0 longer=2
most failures 2 request 3 lost=1 longer=0
most failures 3 request 2 lost=0 longer=1
"""
OF_CIRCUITS = f"""scenario 1 out {AB}
scenario 1 longer request 1 cost=25 was=20 more=5
scenario 1 longer request 2 cost=35 was=10 more=25
scenario 1 overbooked {A} 10.0.14.1 {D} 10.0.14.4 {FULL}
scenario 1 overbooked {D} 10.0.34.4 {C} 10.0.34.3 {FULL}
scenario 1 lost=0 longer=2 most=25 overbooked=2
scenario 2 out {AD}
scenario 2 lost request 3 none was=15
scenario 2 lost=1 longer=0 most=0 overbooked=0
scenario 3 out {BC}
scenario 3 longer request 1 cost=25 was=20 more=5
scenario 3 lost=0 longer=1 most=5 overbooked=0
scenario 4 out {CD}
scenario 4 lost=0 longer=0 most=0 overbooked=0
{RANKED}scenarios=4 lost=1 longer=2 overbooked=1
"""
OF_ROUTERS = f"""scenario 1 out router {A}
scenario 1 lost request 1 unknown-from was=20
scenario 1 lost request 2 unknown-from was=10
scenario 1 lost request 3 unknown-to was=15
scenario 1 lost=3 longer=0 most=0 overbooked=0
scenario 2 out router {B}
scenario 2 lost request 2 unknown-to was=10
scenario 2 longer request 1 cost=25 was=20 more=5
scenario 2 lost=1 longer=1 most=5 overbooked=0
scenario 3 out router {C}
scenario 3 lost request 1 unknown-to was=20
scenario 3 lost=1 longer=0 most=0 overbooked=0
scenario 4 out router {D}
scenario 4 lost request 3 unknown-from was=15
scenario 4 lost=1 longer=0 most=0 overbooked=0
most requests 1 scenario 1 lost=3 longer=0 bandwidth=150 out router {A}
most requests 2 scenario 2 lost=1 longer=1 bandwidth=60 out router {B}
most requests 3 scenario 3 lost=1 longer=0 bandwidth=60 out router {C}
most requests 4 scenario 4 lost=1 longer=0 bandwidth=30 out router {D}
most bandwidth 1 scenario 1 lost=3 longer=0 bandwidth=150 out router {A}
most bandwidth 2 scenario 2 lost=1 longer=1 bandwidth=60 out router {B}
most bandwidth 3 scenario 3 lost=1 longer=0 bandwidth=60 out router {C}
most bandwidth 4 scenario 4 lost=1 longer=0 bandwidth=30 out router {D}
most failures 1 request 1 lost=2 longer=1
most failures 2 request 2 lost=2 longer=0
most failures 3 request 3 lost=2 longer=0
scenarios=4 lost=4 longer=1 overbooked=0
"""
OF_PAIRS = "".join(f"scenario {place} out {one}\nscenario {place} out {other}\nscenario {place} {counts}\n"
                   for place, one, other, counts in (
    (1, AB, AD, "lost=3 longer=0 most=0 overbooked=0"), (2, AB, BC, "lost=1 longer=1 most=5 overbooked=0"),
    (3, AB, CD, "lost=2 longer=0 most=0 overbooked=0"), (4, AD, BC, "lost=2 longer=0 most=0 overbooked=0"),
    (5, AD, CD, "lost=1 longer=0 most=0 overbooked=0"), (6, BC, CD, "lost=1 longer=0 most=0 overbooked=0")))


def sweep(program, rows, asks, *words):
    """Status, standard output and standard error of one sweep; a path is `program`, or a shell script beside it."""
    with tempfile.TemporaryDirectory() as room:
        for name, text in (("journal", rows), ("requests", asks)):
            with open(os.path.join(room, name), "w", newline="") as file:
                file.write(text)
        ran = subprocess.run([*SWEEP, f"{room}/journal", f"{room}/requests", "--program", program, *words], capture_output=True, text=True)
        return ran.returncode, ran.stdout, ran.stderr


def facts(program, rows, asks, pattern, *words):
    """The lines of a sweep in which the pattern is found, without the ranked ones."""
    return [line for line in sweep(program.path, rows, asks, *words)[1].splitlines() if re.search(pattern, line)
            and not line.startswith("most ")]


WRAPPED = """#!{python}
import os, signal, subprocess, sys, time
room, words = {room!r}, sys.argv[1:]
sys.stdout.reconfigure(write_through=False)  # a line is one write, also under PYTHONUNBUFFERED
if words[0] != "solve" or "--pairs" in words:
{first}
    os.execv({program!r}, ["routed", *words])
def touch(name):
    open(f"{{room}}/{{name}}", "w").close()
def wait(until):
    end = time.monotonic() + 60
    while not until():
        if time.monotonic() > end:
            os._exit(9)
        time.sleep(0.01)
def stop(status, text=""):
    running.stdin.close()
    running.wait()  # so that none of its lines comes behind the text
    sys.stderr.write(text)
    sys.stderr.flush()
    os._exit(status)
running = subprocess.Popen([{program!r}, "solve"], stdin=subprocess.PIPE)
touch(f"solve.{{os.getpid()}}")
for count, row in enumerate(iter(sys.stdin.readline, ""), 1):
    row = row.rstrip("\\n")
{script}
    running.stdin.write(f"{{row}}\\n".encode())
    running.stdin.flush()
running.stdin.close()
sys.exit(running.wait())
"""


def wrapped(program, room, script="", first=""):
    """A program that is `routed`, and does in `solve` without pairs what the script says of each `row`, and in other commands first what
    `first` says."""
    path = os.path.join(room, "wrapped")
    with open(path, "w") as file:
        file.write(WRAPPED.format(python=sys.executable, room=room, program=program.path,
                                  script=textwrap.indent(script, "    "), first=textwrap.indent(first, "    ")))
    os.chmod(path, 0o755)
    return path


DROPS = 'if row.startswith("drop,"):\n    '  # in a scenario
HANGS = DROPS + ('print(os.getpid(), os.getppid(), file=open(room + "/new", "w"), flush=True); '
                 'os.rename(room + "/new", room + "/hangs"); time.sleep(600)')
FIRST = 'if row == "drop,1.1.1.1,10.0.12.1":\n    '  # in the first one of the ring
THIRD = 'if row == "drop,2.2.2.2,10.0.23.2":\n    '
