"""The built program as the parts of tests/run run it, and rows that many of them give it."""
import os
import re
import subprocess
import tempfile

from checks import TOP

FREE = ",".join(["1000"] * 8)
MASKS = "0x0,0x0,0x0"
LINK = f"put,1.1.1.1,10.0.12.1,2.2.2.2,10.0.12.2,10,0x1,{FREE}\n"
BACK = f"put,2.2.2.2,10.0.12.2,1.1.1.1,10.0.12.1,10,0x1,{','.join(['0'] * 8)}\n"
CIRCUIT = LINK + BACK + "end,1,2\n"
ASK = f"ask,7,1.1.1.1,2.2.2.2,0,1000,{MASKS},\n"
REPLY = "ask 7 v1 route cost=10 hops=1 again=no ero=000c140101080a000c022000\n"
OPTIONS = {"except": "--except", "pair": "--pairs"}  # by the word of its rows, where a kind of question is asked for


def status_of(lines):
    """The status that the formats give a run with these lines."""
    refused = any(line.split()[:1] != [b"ask"] and b" refused: " in line for line in lines.splitlines())
    ended = lines.splitlines()[-1:]
    return 2 if refused or ended and re.fullmatch(rb"unended \d+|too many rows|journal torn after \d+", ended[0]) else 0


class Program:
    def __init__(self, path):
        self.path = path

    def run(self, words, rows=b"", timeout=900):
        """Status, standard output and standard error of one run."""
        if isinstance(rows, str):
            rows = rows.encode()
        ran = subprocess.run([self.path, *words], input=rows, capture_output=True, timeout=timeout, cwd=TOP)
        return ran.returncode, ran.stdout, ran.stderr

    def solve(self, rows):
        return self.run(["solve"], rows)

    def over(self, command, words, **texts):
        """A run of a command over files that hold these texts, each given by the option of its name."""
        with tempfile.TemporaryDirectory() as room:
            given = [command]
            for name, text in texts.items():
                given += [f"--{name}", os.path.join(room, name)]
                with open(given[-1], "wb") as kept:
                    kept.write(text.encode() if isinstance(text, str) else text)
            return self.run([*given, *words])

    def batch(self, journal, requests, *words):
        return self.over("batch", words, journal=journal, requests=requests)

    def audit(self, journal, requests, replies, *words):
        return self.over("audit", words, journal=journal, requests=requests, replies=replies)
