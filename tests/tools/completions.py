"""Tests of `routed-tools completion`: what bash, zsh and fish complete, as these shells say it."""
import os
import re
import shutil
import subprocess
import tempfile

from checks import TOOLS
from program.serving import PATIENCE

from routed.tools import TOOLS as NAMES

# The words of a command line behind `routed-tools`, the last of which is completed, and what it may become.
WORDS = [
    (["sw"], ["sweep"]), (["sweep", "--fail", ""], ["circuits", "routers", "pairs"]), (["sweep", "--ca"], ["--capacity"]),
    (["sweep", "x", "--fail", "p"], ["pairs"]), (["completion", ""], ["bash", "zsh", "fish"]), (["feed", "bg"], ["bgpls"]),
    (["ask", "--setup", ""], list("01234567")), (["status", "--wa"], ["--watch"]), (["book-report", "--be"], ["--below"]),
]
# Functions that stand for zsh's own: they print what a call of `_arguments` or `_describe` would offer.
ZSH = """
_describe() { print -l -- ${(P)2} }
_arguments() { for it in "$@"; do print -r -- "$it"; done }
words=(routed-tools %s); CURRENT=$#words
. %s
"""


def printed(shell):
    ran = subprocess.run([TOOLS, "completion", shell], capture_output=True, text=True, timeout=PATIENCE)
    return ran.returncode, ran.stdout, ran.stderr


def bash(path, words):
    script = (f'. {path}; COMP_WORDS=(routed-tools "$@"); COMP_CWORD=$#; _routed_tools; printf "%s\\n" "${{COMPREPLY[@]}}"; complete -p')
    return subprocess.run(["bash", "-c", script, "bash", *words], capture_output=True, text=True, timeout=PATIENCE)


def completions(program, checks):
    with tempfile.TemporaryDirectory() as room:
        paths = {}
        for shell in ("bash", "zsh", "fish"):
            status, out, err = printed(shell)
            paths[shell] = os.path.join(room, shell)
            checks.same(f"completion {shell}", (status, err, [name for name in NAMES if name not in out]), (0, "", []))
            with open(paths[shell], "w", encoding="utf-8") as file:
                file.write(out)
        for words, wanted in WORDS:
            ran = bash(paths["bash"], words)
            *found, last = ran.stdout.splitlines()
            checks.same(f"bash completes {words}", (found, last, ran.stderr),
                        (wanted, "complete -o default -F _routed_tools routed-tools", ""))
        found = bash(paths["bash"], ["sweep", "--names", ""]).stdout.splitlines()[:-1]
        checks.same("bash completes files behind an option of a file", found, [""])
        if shutil.which("shellcheck"):
            ran = subprocess.run(["shellcheck", "-s", "bash", paths["bash"]], capture_output=True, text=True)
            checks.same("what shellcheck finds", (ran.returncode, ran.stdout), (0, ""))
        of_zsh(checks, paths["zsh"])
        of_fish(checks, paths["fish"])
        ran = subprocess.run([TOOLS, "completion", "csh"], capture_output=True, text=True)
        is_told = "invalid choice: 'csh'" in ran.stderr and "Traceback" not in ran.stderr
        checks.true("a shell that isn't known", ran.returncode == 2 and is_told, ran.stderr)


def of_zsh(checks, path):
    if not shutil.which("zsh"):
        print("skipped: what zsh completes, since there is no zsh")
        return

    def offered(*words):
        script = ZSH % (" ".join(f"'{word}'" for word in words), path)
        ran = subprocess.run(["zsh", "-f", "-c", script], capture_output=True, text=True, timeout=PATIENCE)
        checks.same(f"zsh reads it for {words}", (ran.returncode, ran.stderr), (0, ""))
        return ran.stdout.splitlines()

    checks.same("zsh completes tools", [line.partition(":")[0] for line in offered("sw")], list(NAMES))
    found = offered("sweep", "")
    for pattern in (r"--fail\[what is out in a scenario\]:value:\(circuits routers pairs\)", r"--json\[print one line of JSON\]",
                    r"--capacity\[.*\]:value:_files", r"\*:file:_files"):
        checks.true(f"zsh completes {pattern}", [line for line in found if re.fullmatch(pattern, line)], found)
    checks.true("zsh completes words", "1:word:(links routers marks diff)" in offered("show", "x", ""))


def of_fish(checks, path):
    if not shutil.which("fish"):
        print("skipped: what fish completes, since there is no fish")
        return
    for words, wanted in WORDS:
        ran = subprocess.run(["fish", "--no-config", "-c", f"source {path}; complete -C 'routed-tools {' '.join(words)}'"], text=True,
                             capture_output=True, timeout=PATIENCE, cwd=os.path.dirname(path))
        found = [line.partition("\t")[0] for line in ran.stdout.splitlines()]
        checks.true(f"fish completes {words}", set(wanted) <= set(found) and ran.stderr == "", (found, ran.stderr))
