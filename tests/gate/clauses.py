"""The words of specs/ that the public clauses of the crates cite."""
import glob
import os
import re

IMPORT = re.compile(r"ghost use Rattle\.cspf_\w+\.specs\.([\w.]+)\.\{([^}]*)\}")
REEXPORT = re.compile(r"pub use [\w:]+?::(?:\{([^}]*)\}|(\w+));")
FUNCTION = re.compile(r'(?:^|\n)pub (?:extern "C" )?fn (\w+)(.*?)\n\{', re.S)
IMPL = re.compile(r"\nimpl(?:<[^>]*>)? (?:\w+ for )?(\w+)[^\n]*\{\n(.*?)\n\}", re.S)
METHOD = re.compile(r"(?:^|\n)    pub fn (\w+)(.*?)\n    \{", re.S)


def names_of(text):
    """What a crate hands out."""
    return {name.strip().split(" as ")[-1]
            for many, one in REEXPORT.findall(text) for name in (many or one).split(",") if name.strip()}


def words_of(text):
    """The words that a file imports from specs/, by the names that it has for them."""
    words = {}
    for module, names in IMPORT.findall(text):
        if "declared" not in module.split("."):
            for name in filter(None, map(str.strip, names.split(","))):
                words[name.split(" as ")[-1].strip()] = name.split(" as ")[0].strip()
    return words


def contracts_of(text, names):
    """The public functions and methods of a file, each with what stands before its body."""
    for name, contract in FUNCTION.findall(text):
        if name in names:
            yield name, contract
    for owner, body in IMPL.findall(text):
        if owner in names:
            for name, contract in METHOD.findall(body):
                yield f"{owner}::{name}", contract


def cited(top):
    """For each word the public functions whose clauses cite it."""
    found = {}
    for root in sorted(glob.glob(os.path.join(top, "crates/*/src/lib.rt"))):
        source = os.path.dirname(root)
        names = names_of(open(root, encoding="utf-8").read())
        for path in sorted(glob.glob(os.path.join(source, "**/*.rt"), recursive=True)):
            text = open(path, encoding="utf-8").read()
            words = words_of(text)
            for function, contract in contracts_of(text, names):
                for local, word in words.items():
                    if re.search(r"(?<![\w.])" + re.escape(local) + r"(?!\w)", contract):
                        found.setdefault(word, set()).add(function)
    return found
