"""The edits of must-fail/ and mutants/: which texts of a crate they change, by the rules of `rt help`."""
import glob
import os


def edits_of(top):
    """Each edit below must-fail/ and mutants/, with the folder of its crate."""
    for path in sorted(glob.glob(os.path.join(top, "crates/*/must-fail/*.edit"))):
        yield path, os.path.dirname(os.path.dirname(path))
    for path in sorted(glob.glob(os.path.join(top, "mutants/*/*.edit"))):
        yield path, os.path.join(top, "crates", os.path.basename(os.path.dirname(path)))


def edited(path, folder):
    """The texts that an edit makes of a crate's files, by their paths in the crate. A ValueError says why it can't be applied."""
    file, old, texts, was = None, None, {}, {}
    with open(path, encoding="utf-8") as edit:
        lines = edit.read().split("\n")
    for line in lines:
        if line.startswith("file: "):
            file = line.removeprefix("file: ").strip()
            if os.path.normpath(file) != file or not file.startswith(("src/", "specs/", "proofs/")):
                raise ValueError(f"{file} is no file below src/, specs/ or proofs/")
        elif line.startswith("old: "):
            old = line.removeprefix("old: ")
        elif line.startswith("new:"):
            if file is None or old is None:
                raise ValueError("a 'new:' line is before any 'file:' or 'old:' line")
            if file not in texts:
                if not os.path.isfile(os.path.join(folder, file)):
                    raise ValueError(f"there is no file {file}")
                with open(os.path.join(folder, file), encoding="utf-8") as source:
                    texts[file] = was[file] = source.read()
            found = texts[file].count(old)
            if found != 1:
                raise ValueError(f"its 'old:' text {old!r} is in {file} {found} times, and not once")
            texts[file] = texts[file].replace(old, line.removeprefix("new:").removeprefix(" "))
            old = None
    if texts == was:
        raise ValueError("it changes nothing")
    return texts
