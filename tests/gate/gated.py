"""Tests of what .ci/run says of the kit and of what `rt ci` took over from earlier runs, with an `rt` that proves nothing."""
import os
import tempfile

from gate.building import Tree

RT = """#!/bin/sh
case "$*" in
version) echo "kit-of-a-test logic 0123" ;;
ci) cat "$SAID" ;;
*) exit 2 ;;
esac
"""
KIT = "== kit-of-a-test logic 0123: "
NOTHING = f"{KIT}rt ci took nothing over from earlier runs, so what passed was proved and tried in this run"
SHARE = "done in this run: 3 of the 66 proofs (of crates and of their tests); the others are kept from earlier runs on this machine"
# What `rt ci` prints, its counts, and what the gate then says: in a kit that keeps nothing, in one that keeps, and where it doesn't pass.
CASES = [
    ("rt: ok; handles allowed: Threads, Wait; must-fail edits: 40 refused", "9 passed, 0 failed", NOTHING),
    ("rt: ok; handles allowed: none; every proof and must-fail edit was done in this run", "9 passed, 0 failed", NOTHING),
    (f"rt: low is kept: an earlier run on this machine proved the same files\nrt: ok; must-fail edits: 40 refused; {SHARE}",
     "9 passed, 0 failed", KIT + SHARE),
    ("rt: low is kept: an earlier run on this machine proved the same files\nrt: FAILED: left", "8 passed, 1 failed",
     f"{KIT}rt ci took over what earlier runs passed, as its lines with 'earlier run' say"),
    ("rt: FAILED: left", "8 passed, 1 failed", NOTHING),
]


def gated(checks):
    with tempfile.TemporaryDirectory() as room:
        tree = Tree(room, [".ci/run"], RT)
        for name in "texts", "run", "scarce", "chain":
            tree.write(f"tests/{name}", "#!/bin/sh\necho '1 passed, 0 failed'\n")
            os.chmod(os.path.join(room, "tests", name), 0o755)
        for said, counts, wanted in CASES:
            tree.write("said", f"{said}\n{counts}\n")
            status, lines = tree.run(".ci/run", SAID=os.path.join(room, "said"), XDG_CACHE_HOME=os.path.join(room, "cache"))
            failed, at = int("1 failed" in counts), lines.index(counts)
            checks.same(f".ci/run says first which kit it is ({said!r})", (lines[0], status),
                        ("The kit is kit-of-a-test logic 0123.", failed))
            checks.true("after rt ci it says how long that took", lines[at + 1].startswith("== rt ci took "), lines)
            checks.same("and what was taken over", lines[at + 2], wanted)
            checks.same("its last line", lines[-1], f"{int(counts[0]) + 4} passed, {failed} failed")
