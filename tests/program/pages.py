"""The commands of the pages, and what they print."""
import os
import re
import subprocess
import tempfile

from checks import TOP

BLOCK = re.compile(r"(?:^    .*\n)+", re.M)  # the commands of a page, or what they print
# pages whose commands make files and are typed at the top
TYPED = ["README.md", "examples/README.md", "docs/run/ASK.md", "docs/run/C.md", "docs/run/FEED.md", "docs/run/OPERATORS.md"]


def kept_files():
    """What the checkout holds, but for git's own files and those that `rt` builds."""
    for folder, folders, names in os.walk(TOP):
        folders[:] = [name for name in folders if name not in (".git", "out")]
        yield from (os.path.relpath(os.path.join(folder, name), TOP) for name in folders + names)


def made(page):
    """The files that the commands of a page make, by their names. What the page quotes of their output is left out."""
    page = re.sub(r"<!-- printed by .*? -->\n\n(?:    .*\n)+", "", page)
    fenced = re.findall(r"^```sh\n(.*?)^```$", page, re.M | re.S)
    for line in "".join(BLOCK.findall(page) + fenced).splitlines():
        yield from re.findall(r"(?:> *|(?:-o|--journal) |--client \S+=|--(?:ask|updates) (?!\d))([^\s&;>|]+)", line)
        for names in re.findall(r"mkfifo((?: [^\s&;|]+)+)", line):
            yield from names.split()


def readme(program, checks):
    """The examples print what the pages quote, and no command of a page leaves a file in the checkout."""
    for page in ["README.md", "examples/README.md", "docs/run/OPERATORS.md", "docs/believe/WHY.md"]:
        text = open(os.path.join(TOP, page), encoding="utf-8").read()
        found = list(re.finditer(r"<!-- printed by (.*?) -->\n\n((?:    .*\n)+)", text))
        checks.true(f"{page} quotes the program", found)
        for quote in found:
            command = re.sub("(?m)^    ", "", BLOCK.findall(text[:quote.start()])[-1]) if quote[1] == "the commands above" else quote[1]
            words = re.sub(r"(?m)(^|\| )(?:crates/routed/out/)?routed ", rf'\1"{program.path}" ', command)
            before = set(kept_files())
            with tempfile.TemporaryDirectory() as room:
                around = {**os.environ, "TMPDIR": room}
                ran = subprocess.run(["timeout", "60", "sh", "-c", words], cwd=TOP, capture_output=True, text=True, env=around)
            checks.same(f"{page}: {command}", (ran.stdout, ran.stderr), (re.sub("(?m)^    ", "", quote[2]), ""))
            checks.same(f"{page}: {command} leaves no file", sorted(set(kept_files()) - before), [])
    for page in TYPED:
        text = open(os.path.join(TOP, page), encoding="utf-8").read()
        others = {name for name in made(text) if not name.startswith(("$dir/", "/"))}
        kept = {name for name in others if name.startswith("examples/") and os.path.exists(os.path.join(TOP, name))}
        found = sorted(others - kept), "dir=$(mktemp -d)\n" in text
        checks.same(f"{page}: its commands make files in a folder of their own", found, ([], True))
