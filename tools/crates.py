"""Copies of some crates, which `rt ci` proves apart from all others."""
import os
import shutil

TOP = os.path.dirname(os.path.dirname(os.path.abspath(__file__)))


def copied(room, names, left_out):
    """Copies these crates, or all, and those below them, to a folder with what `rt ci` reads beside them. What is named to be left out
    stands in a crate's own folder. The result is the crates' names in the order of crates.txt, or nothing where one isn't there."""
    with open(os.path.join(TOP, "crates.txt"), encoding="utf-8") as file:
        lines = {line.partition(":")[0].split()[0]: line for line in file if line.partition("#")[0].strip()}
    more = [*(names or lines)]
    if not set(lines).issuperset(more):
        return []
    for name in more:
        below = lines[name].partition("#")[0].partition(":")[2].split()
        more.extend(it for it in below if it in lines and it not in more)
    wanted = [name for name in lines if name in more]
    for name in wanted:
        here = os.path.join(TOP, "crates", name)
        shutil.copytree(here, os.path.join(room, "crates", name), ignore=lambda at, found: left_out if at == here else ())
    with open(os.path.join(room, "crates.txt"), "w", encoding="utf-8") as file:
        file.writelines(lines[name] for name in wanted)
    shutil.copy2(os.path.join(TOP, "HANDLES"), room)
    return wanted
