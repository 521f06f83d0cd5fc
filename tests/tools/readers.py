"""Tests of the one reader of journals: what it takes and refuses is what the texts of tests/program/scripts and tests/program/journals say,
and each tool that reads a journal reads one with a byte order mark, carriage returns and quotes as `routed` does."""
import os
import re
import subprocess
import tempfile

from checks import TOOLS, TOP

WORKED = os.path.join(TOP, "tests/program")


def dressed(rows):
    """The same rows with a byte order mark, each field in quotes, empty lines, and carriage returns."""
    lines = [",".join(f'"{field}"' for field in row.split(",")) for row in rows.splitlines()]
    return "\ufeff" + "\r\n\r\n".join(lines) + "\r\n"


def kept(folder, name):
    path = os.path.join(WORKED, folder, name)
    return open(path, "rb").read() if os.path.exists(path) else b""


def refusals(checks):
    """Row by row, by the lines of the worked streams."""
    from routed.model.journals import records, refusal
    told = set()
    for name in sorted(os.listdir(os.path.join(WORKED, "scripts"))):
        if name.endswith(".rows"):
            out = kept("scripts", name[:-5] + ".out").decode()
            wanted = {int(place): words for place, words in re.findall(r"(?m)^row (\d+) refused: (.*)$", out)}
            rows = list(records(kept("scripts", name)))
            found = {place: refusal(fields) for place, fields in enumerate(rows, 1) if refusal(fields)}
            asked = {place for place, fields in enumerate(rows, 1) if fields[0] == "ask" and len(fields) == 10}
            checks.same(f"refused rows of {name}", found, {place: words for place, words in wanted.items() if place not in asked})
            told |= set(found.values())
    checks.true("worked streams have refusals of many words", len(told) > 6, told)
    most = ",".join([str(2**64 - 1)] * 8)
    for row, words in [
            (f"put,1.1.1.1,10.0.0.1,2.2.2.2,10.0.0.2,4294967295,0xFFFFFFFF,{most}", None),
            (f"put,1.1.1.1,10.0.0.1,2.2.2.2,10.0.0.2,4294967296,0x1,{most}", "number 6"),
            (f"put,1.1.1.1,10.0.0.1,2.2.2.2,10.0.0.2,1,0x123456789,{most}", "mask 7"),
            (f"put,1.1.1.1,10.0.0.1,2.2.2.2,10.0.0.2,1,0x,{most}", "mask 7"),
            (f"put,1.1.1.1,10.0.0.1,2.2.2.2,10.0.0.2,1,0x1,{most}6", "number 15"),
            (f"put,1.1.1.1,10.0.0.1,1.1.1.1,10.0.0.2,1,0x1,{most}", "self-link"),
            ("node,1.1.1.1,2", "number 3"), ("node,256.1.1.1,2", "address 2"), ("drop,1.1.1.1,1.1.1.1,", "fields"),
            ("drop,1.1.1.01,1.1.1.1", "address 2"), ("drop,1.1.1.1,1.1.1", "address 3"), ("end,+1,0", "number 2"), ("end,1, 0", "number 3"),
            ("end," + "9" * 100_000 + ",0", "number 2"), ('"drop,1.1.1.1",1.1.1.1', "kind"), ("END,1,0", "kind"),
            ("end,\u0661,0", "number 2")]:
        checks.same(f"a row: {row[:60]}", refusal(next(records(row.encode()))), words)


def whole_batches(checks):
    """How many batches of each journal are whole, by the lines beside it."""
    from routed.model.journals import Refused, batches

    def counted(text):
        count = 0
        try:
            for count, _ in enumerate(batches(text), 1):
                pass
        except Refused:
            pass
        return count

    tried = 0
    for name in sorted(os.listdir(os.path.join(WORKED, "journals"))):
        out, words = (kept("journals", name[:-8] + kind).decode() for kind in (".out", ".words"))
        if name.endswith(".journal") and not words and not re.search("^batch|^request", out, re.M):
            torn = re.search(r"journal torn after (\d+)", out)
            checks.same(f"whole batches of {name}", counted(kept("journals", name)),
                        int(torn[1]) if torn else len(re.findall("(?m)^version", out)))
            tried += 1
    checks.true("journals were counted", tried > 8, tried)


def tool(name, *words):
    ran = subprocess.run([TOOLS, name, *words], capture_output=True, text=True, timeout=60)
    return ran.returncode, ran.stdout, ran.stderr


def readers(program, checks):
    refusals(checks)
    whole_batches(checks)
    with tempfile.TemporaryDirectory() as room:
        paths = [os.path.join(room, name) for name in ("plain", "dressed", "requests")]
        plain = open(os.path.join(TOP, "examples/nsfnet.journal"), encoding="ascii").read()
        requests = open(os.path.join(TOP, "examples/nsfnet.requests"), encoding="ascii").read()
        for path, text in zip(paths, (plain, dressed(plain), dressed(requests))):
            with open(path, "w", encoding="utf-8", newline="") as file:
                file.write(text)
        texts = [program.run(["snapshot", "--journal", path]) for path in paths[:2]]
        checks.true("routed reads the dressed journal as the plain one", texts[0] == texts[1] and texts[0][0] == 0, texts)
        drawn = [tool("draw", path, "--title", "") for path in paths[:2]]
        checks.same("draw: a byte order mark, carriage returns and quotes", drawn[1], drawn[0])
        checks.same("draw: circuits, and no link of one way", (drawn[1][1].count('class="circuit"'), drawn[1][1].count('class="one-way"')),
                    (21, 0))
        swept = [tool("sweep", path, requests, "--program", program.path) for path, requests in
                 ((paths[0], os.path.join(TOP, "examples/nsfnet.requests")), (paths[1], paths[2]))]
        checks.true("sweep: a network of 21 circuits", "links=42 circuits=21" in swept[0][1], swept[0])
        checks.same("sweep: a byte order mark, carriage returns and quotes", swept[1], swept[0])
