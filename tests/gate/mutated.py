"""Tests of tests/mutants on a tree of small crates, with an `rt` that says of each edit what the edit's own text is, as kits have it whose
`rt ci` takes names, or whose `rt must-fail` is there, or neither."""
import os
import shutil
import tempfile

from gate.building import BARE, NAMED, NAMELESS, Tree

# `rt ci` with and without names and `rt must-fail` end with the status that a variable gives, and then say nothing of edits.
RT = """#!/bin/sh
says() {
    for it in crates/$1/must-fail/*.edit; do
        [ ! -s "$it" ] || echo "rt: must-fail $(echo "$it" | cut -d/ -f2,4): $(cat "$it")"
    done
}
ends() {
    [ -z "$1" ] || { echo "why it stopped"; echo "more words"; exit "$1"; }
}
case "$1" in
check) echo "$* ${PWD##*/}" ;;
*) echo "$*" ;;
esac >>"$NOTES"
case "$1 $#" in
"ci 1") ls crates >>"$NOTES"; ends "$WHOLE"; says '*' ;;
ci*) grep -q 'rt ci NAME' "$HELP" || ends 2; ends "$NAMES"; says '*' ;;
check*) [ "$UNPROVED" != "${PWD##*/}" ] || exit 1 ;;
must-fail*) ends "$MUST_FAIL"; says "$2" ;;
*) cat "$HELP" >&2; exit 2 ;;
esac
"""
REFUSED = "refused, as it must be: src/lib.rt:1:1: it is not proved that the function returns"
NOT_REFUSED = "NOT REFUSED: the crate is still proved"
OTHERS = [NOT_REFUSED, "BAD EDIT: its text is not there",
          "refused, as it must be (only because a proof file names what the edit took away)",
          "refused, as it must be (only by a limit of the prover, which gave no verdict)"]
KILLED = "NOT TRIED: its check was killed"
# Those in mutants/. One more of `low` is in must-fail/.
EDITS = ["left/one.edit", "left/two.edit", "low/one.edit", "low/two.edit"]
EVERY = f"({', '.join(EDITS)}, low/wrong.edit)"
# Each kind of kit with its help, what the calls note that try all edits, and which of them tries those of `left`.
KITS = {
    "names": (NAMED, ["ci left low"], "rt ci left low"),
    "rt must-fail": (NAMELESS, ["check left", "must-fail left", "check low", "must-fail low"], "rt must-fail left"),
    "neither": (BARE, ["ci", "left", "low"], "rt ci"),
}


def mutated(checks):
    with tempfile.TemporaryDirectory() as room:
        tree = Tree(room, ["tests/mutants"], RT)
        shutil.rmtree(os.path.join(room, "crates/left/must-fail"))
        for name, (text, calls, call) in KITS.items():
            tree.write("help", text)
            judged(tree, checks, name, calls, call)
        stopped(tree, checks)
        unproved(tree, checks)


def lay(tree, *verdicts):
    """Makes the edits, of which `rt` says this."""
    tree.write("crates/low/must-fail/wrong.edit", REFUSED)
    for name, verdict in zip(EDITS, verdicts):
        tree.write(f"mutants/{name}", verdict)


def judged(tree, checks, name, calls, call):
    lay(tree, *[REFUSED] * 4)
    status, said = tree.run("tests/mutants")
    checks.same(f"tests/mutants with {name}: each edit that is refused counts", (status, said[-1]), (0, "5 refused, 0 not"))
    checks.same(f"with {name}: what is called", tree.noted(), ["help", *calls])
    lay(tree, *OTHERS)
    status, said = tree.run("tests/mutants")
    wanted = [*(f"FAILED {edit}: {verdict}" for edit, verdict in zip(EDITS, OTHERS)), "1 refused, 4 not"]
    checks.same(f"with {name}: each that isn't refused at a goal is named", (status, said[-5:]), (1, wanted))
    lay(tree, NOT_REFUSED, KILLED, REFUSED, REFUSED)
    status, said = tree.run("tests/mutants")
    wanted = [f"FAILED left/one.edit: {NOT_REFUSED}", f"{KILLED} (left/two.edit)", "3 refused, 1 not, 1 not tried"]
    checks.same(f"with {name}: one whose check was killed counts as neither", (status, said[-3:]), (2, wanted))
    lay(tree, REFUSED, "", REFUSED, REFUSED)
    status, said = tree.run("tests/mutants")
    wanted = [f"NOT TRIED: `{call}` ended with status 0, and said nothing of them (left/two.edit)", "4 refused, 0 not, 1 not tried"]
    checks.same(f"with {name}: one of which nothing is said counts as neither", (status, said[-2:]), (2, wanted))


def stopped(tree, checks):
    """Status 2 of `rt` says that it judged nothing, so it ends the run, or has the edits tried in the next way."""
    lay(tree, *[REFUSED] * 4)
    none = "0 refused, 0 not, 5 not tried"
    tree.write("help", NAMELESS)
    status, said = tree.run("tests/mutants", MUST_FAIL="2")
    why = f"NOT TRIED: `rt must-fail left` ended with status 2: why it stopped {EVERY}"
    checks.same("tests/mutants: no edit is tried where rt must-fail ends with status 2", (status, said[-2:]), (2, [why, none]))
    checks.same("that ends the run", tree.noted(), ["help", "check left", "must-fail left"])
    tree.write("help", BARE)
    status, said = tree.run("tests/mutants", WHOLE="2")
    checks.same("nor where rt ci does", (status, said[-2:]), (2, [f"NOT TRIED: `rt ci` ended with status 2: why it stopped {EVERY}", none]))
    tree.write("help", NAMED)
    status, said = tree.run("tests/mutants", NAMES="2")
    checks.same("where rt ci with names ends with status 2, edits are tried without", (status, said[-1]), (0, "5 refused, 0 not"))
    checks.same("by rt must-fail", tree.noted(), ["help", "ci left low", *KITS["rt must-fail"][1]])
    checks.true("a line says so", "`rt ci left low` ended with status 2: why it stopped. The edits are tried without names" in said, said)
    tree.write("help", BARE)
    status, said = tree.run("tests/mutants", "low")
    checks.same("without names the copy has the crate and those below it alone", tree.noted(), ["help", "ci", "low"])
    checks.same("and the edits of that crate alone are tried", (status, said[-1]), (0, "3 refused, 0 not"))


def unproved(tree, checks):
    """A crate that isn't proved itself refuses nothing, and the next is tried."""
    lay(tree, *[REFUSED] * 4)
    tree.write("help", NAMELESS)
    status, said = tree.run("tests/mutants", UNPROVED="left")
    why = "NOT TRIED: `rt check` ended with status 1, and said nothing of them (left/one.edit, left/two.edit)"
    checks.same("tests/mutants: edits of a crate that isn't proved aren't tried", (status, said[-2:]),
                (2, [why, "3 refused, 0 not, 2 not tried"]))
    checks.same("rt must-fail isn't called for it", tree.noted(), ["help", "check left", "check low", "must-fail low"])
