#!/usr/bin/env python3
"""The definitions, types and limits that the theorem rests on: what has to be believed.

    tests/gate/theorem.py [--of CALL]

It prints the three tiers of THEOREM.md: the definitions of specs/ with the lines where they stand, then the types and limits of src/, and
how many definitions there are. With --of it prints those of another public call, as run_serve, each with the comment above it, unless
THEOREM.md has it.
It begins with the words that a contract cites, and goes from each word to those that its definition cites, until nothing new comes.
Of a type it takes the public fields or variants, the facts that they keep, and what clauses see it as (`Value` of its `Model`); what is
private isn't needed to read a clause. It stops at the words of the kit. tests/texts compares THEOREM.md and docs/believe/MODEL.md with it.
The status is 1 where a word leads nowhere.
"""
import argparse
import os
import re
import signal
import sys

sys.dont_write_bytecode = True
sys.path.insert(1, os.path.dirname(os.path.dirname(os.path.abspath(__file__))))
from checks import TOP
from gate.public import Tree, present
from gate.reading import WORD, Item

# What each tier of THEOREM.md begins with, by its heading: calls, and definitions of specs/. This list is made by hand. No clause of a call
# cites the rule between steps. A definition belongs to the first tier that leads to it.
TIERS = {
    "The answer": ("cspf_search::best",),
    "Batches and the journal's text": (
        "cspf_journal.specs.Histories.IsHistory", "cspf_journal.specs.Histories.MayFollow", "cspf_model.specs.Refusals.IsRefusal",
        "cspf_rows.specs.BatchText.batch_text",
    ),
    "Publisher and askers": (
        "cspf_publish::open", "cspf_publish::Publisher::apply", "cspf_publish::Publisher::prepare", "cspf_publish::Publisher::publish",
        "cspf_publish::Publisher::tell", "cspf_publish::Publisher::close",
        "cspf_publish::Asker::ask", "cspf_publish::Asker::learn", "cspf_publish::Asker::meet", "cspf_client::ServingClient::meet",
        "cspf_publish.specs.ReplicaRule.HoldsBetweenSteps", "cspf_publish.specs.ReplicaRule.Publishes",
        "cspf_publish.specs.ReplicaRule.Enters", "cspf_publish.specs.ReplicaRule.Opens",
    ),
}
# The calls of which THEOREM.md has the counts alone, each under its heading.
COUNTED = {"The server": "cspf_serve::run_serve", "The book": "cspf_book_run::run_book",
           "The server with a book": "cspf_book_serve::run_serve_book"}
# The definitions that THEOREM.md quotes whole: those that decide which answer is right.
QUOTED = {"IsBestAnswer", "IsBestRoute", "IsRoute", "IsWalk", "walk_cmp", "IsUsable", "IsAdmitted", "HasAffinity"}
RUST = re.compile(r"(?<![\w.])[A-Za-z]\w*")
ATTRIBUTES = re.compile(r"^(#\s*\[.*?\]\s*)+")
TYPE = re.compile(r"(struct|enum|union|type|trait) ")
NUMBER = re.compile(r"(const|static) ")
OF_TREE = re.compile(r"Rattle\.(cspf_\w+|routed)\.specs\.(.+)")
PRIVATE = ".. (private fields)"
# A small tree, in which a call rests on some of what is there.
SMALL = {
    "crates/cspf_low/src/lib.rt": """mod shelf;
pub use shelf::{Shelf, take};
""",
    "crates/cspf_low/src/shelf.rt": """ghost use Rattle.std.specs.Prelude.{◌≡◌, IfOk};
ghost use Rattle.cspf_low.specs.Shelves.{IsTakenFrom as Taken, IsUncited};
pub struct Shelf {
    books: Vec<Book>,
}
pub struct Book(u32);
pub enum Fault {
    #[error("none")]
    None(Why),
}
pub struct Why;
pub const MOST: usize = 9;
impl Model for Shelf {
    ghost use Rattle.cspf_low.specs.Shelves.{Rows, books_of, IsKept};
    ghost Value = { Rows };
    ghost view = { λ s. books_of s.books };
    ghost invariant = { IsKept };
}
/// IsUncited
pub fn take(shelf: &mut Shelf) -> Result<u32, Fault>
    ensures { IfOk result (Taken shelf.old shelf.new) }
{
    IsUncited
}
""",
    "crates/cspf_low/specs/Shelves.antt": """use Rattle.std.specs.Prelude.{ℕ, List, length}
use Rattle.cspf_low.specs.Orders.{up}
use Rattle.cspf_low.specs.declared.shelf.TheConstants.{MOST}
-- books
pub record Books : Type 0 where
  pub books_of : List ℕ
-- the first one is taken
abbrev pub IsTakenFrom : Books → Books → Type 0
IsTakenFrom old new = hidden old new up
-- not public
abbrev hidden : Books → Books → Order → Type 0
hidden old new order = IsHeld MOST new.IsUncited -- IsUncited
module _ (most : ℕ) where
  -- held
  abbrev pub IsHeld : Books → Type 0
  IsHeld b = IsFew b
-- few
abbrev pub IsFew : Books → Type 0
IsFew b = length b.books_of ≤ MOST
abbrev pub Rows : Type 0
Rows = List Books
abbrev pub IsKept : Books → Type 0
abbrev pub IsUncited : Books → Type 0
""",
    "crates/cspf_low/specs/Orders.antt": """pub data Order : Type 0 where
  up : Order
  down : Order
abbrev pub is_up : Order → Type 0
""",
}
SMALL_RESTS = "Books Fault IsFew IsHeld IsTakenFrom MOST Order Rows Shelf Why take".split()
SMALL_TIERS = {"Few": ("cspf_low.specs.Shelves.IsFew",), "Taken": ("cspf_low::take",)}
SMALL_PAGE = """# Shelves

Shelves rest on 6 definitions, 15 lines in 2 files.

## Few

Here are 2 definitions, 4 lines in 1 files, without `IsTakenFrom`.

[`IsFew`](crates/cspf_low/specs/Shelves.antt): few (RFC 1, part 2).

```antt
abbrev pub IsFew : Books → Type 0
IsFew b = length b.books_of ≤ MOST
```

| Name | What it says |
|---|---|
| [`Books`](crates/cspf_low/specs/Shelves.antt) | books |
| [`MOST`](crates/cspf_low/src/shelf.rt) | at most 9 books |

## Taken

Here are 4 definitions, 11 lines in 2 files.

| Name | What it says |
|---|---|
| [`take`](crates/cspf_low/src/shelf.rt) | [takes](#few) the first |
| [`IsTakenFrom`](crates/cspf_low/specs/Shelves.antt), [`Rows`](crates/cspf_low/specs/Shelves.antt) | taken |
| [`IsHeld`](crates/cspf_low/specs/Shelves.antt) | held |
| [`Order`](crates/cspf_low/specs/Orders.antt) | up or down |
| [`Shelf`](crates/cspf_low/src/shelf.rt), [`Fault`](crates/cspf_low/src/shelf.rt), [`Why`](crates/cspf_low/src/shelf.rt) | types |

## All

`take` rests on 6 definitions, 15 lines in 2 files. 0 of them aren't listed above.
"""
# What is changed on that page, and what is then said of it.
SMALL_FAULTS = [
    ("| [`Order`](crates/cspf_low/specs/Orders.antt) | up or down |\n", "",
     "Order of crates/cspf_low/specs/Orders.antt is listed in [], not in ['Taken']"),
    ("| [`Order`]", "| [`up`](crates/cspf_low/specs/Orders.antt), [`Order`]",
     "up of crates/cspf_low/specs/Orders.antt is listed in ['Taken'], not in []"),
    ("[`Rows`](crates/cspf_low/specs/Shelves.antt) | taken", "[`Rows`](crates/cspf_low/specs/Orders.antt) | taken",
     "Rows of crates/cspf_low/specs/Orders.antt is listed in ['Taken'], not in []"),
    ("| [`take`]", "| [`Books`](crates/cspf_low/specs/Shelves.antt), [`take`]",
     "Books of crates/cspf_low/specs/Shelves.antt is listed in ['Few', 'Taken'], not in ['Few']"),
    ("IsFew b = length b.books_of ≤ MOST", "IsFew b = length b.books_of < MOST", "IsFew is not quoted as its source has it"),
    ("IsFew b = length b.books_of ≤ MOST\n", "", "IsFew is not quoted as its source has it"),
    ("```antt\nabbrev pub IsFew : Books → Type 0\nIsFew b = length b.books_of ≤ MOST\n```\n", "", "quoted are [], not ['IsFew']"),
    ("few (RFC 1, part 2).", "few.", "IsFew is quoted without the RFC that it follows"),
    ("at most 9 books", "at most 90 books", "MOST is not said to be 9"),
    ("| [`IsHeld`](crates/cspf_low/specs/Shelves.antt) | held |\n", "",
     "IsHeld of crates/cspf_low/specs/Shelves.antt is listed in [], not in ['Taken']"),
    ("rest on 6 definitions", "rest on 7 definitions", "says 7 definitions, 15 lines in 2 files, not 6 definitions, 15 lines in 2 files"),
    ("4 lines in 1 files", "5 lines in 1 files", "says 2 definitions, 5 lines in 1 files, not 2 definitions, 4 lines in 1 files"),
    ("0 of them", "1 of them", "says that 1 are not listed above, not 0"),
]
LISTED = re.compile(r"\[`([^`]+)`\]\(([^)]+)\)")
ENTRY = re.compile(r"(?m)^(?:\| (\[`.*?) \| |(\[`[^`]+`\]\([^)]+\)): ).*$")
QUOTE = re.compile(r"(?m)^\[`([^`]+)`\]\(([^)]+)\): (.*)\n\n```antt\n((?:.*\n)*?)```$")
COUNT = re.compile(r"[\d,]+ definitions, [\d,]+ lines in [\d,]+ files")
BEYOND = re.compile(r"([\d,]+) of them aren't listed above")


class Closure:
    """The definitions, types and limits that some calls and definitions of a tree rest on, and the words that lead nowhere."""

    def __init__(self, tree, roots):
        self.tree, self.calls, self.words, self.types, self.limits, self.lost = tree, {}, {}, {}, {}, []
        self.modules = dict(modules_of(tree))
        by_path = {path: it for it in tree.contracts for path in it.paths}
        for path in roots:
            home, _, name = path.replace(".specs.", " ").rpartition(".")
            if path in by_path:
                self.calls[path] = by_path[path]
                self.contract(by_path[path], by_path[path].parts)
                self.item(self.named(path.split("::")[1:-1], tree.crates[path.split("::")[0]]))
            elif (home, name) in tree.definitions:
                self.definition(tree.definitions[home, name])
            else:
                self.lost.append(f"{'definition' if home else 'call'} {path}")

    def contract(self, it, parts):
        """Follows what parts of a contract cite: words of specs/, and types and limits by their names in Rust."""
        there = tokens(parts)
        for name, where in it.words.items():
            # (of a module all is followed: by its own name it stands before a dot)
            if not where[1] or all(part in there for part in name.split("◌") if part):
                self.word(where, it)
        for name in sorted({name for part in parts for name in RUST.findall(part)}):
            self.item(self.named([name], self.module_of(it)))

    def module_of(self, it):
        """The module of src/ that says it. (Of a number that no caller can name the home is written like that of a definition.)"""
        crate, _, module = it.home.partition(" ")
        return self.modules[crate if module in ("", "lib") else f"{crate}::{module}"]

    def named(self, path, module):
        """The type or limit of the tree at a path that is written in a module."""
        found = self.tree.resolve(path, module)
        return found if isinstance(found, Item) else None

    def item(self, it):
        """Takes in a type or a limit of src/, and follows what is seen of it."""
        if it is None:
            return
        one = it.contract
        parts = [ATTRIBUTES.sub("", part) for part in one.parts]
        taken = self.types if any(map(TYPE.match, parts)) else self.limits if any(map(NUMBER.match, parts)) else None
        if taken is None or (one.home, one.name) in taken:
            return
        taken[one.home, one.name] = one
        self.contract(one, parts)
        for more in it.more:
            if more.contract.name == f"{one.name} as Model":
                seen = [part for part in more.contract.parts if part.startswith("ghost Value") or part.startswith("ghost view")
                        and PRIVATE not in parts]
                self.contract(more.contract, seen)

    def word(self, where, by):
        """Takes in the definition that an imported word names, and follows what that cites."""
        path, name = where
        ours = OF_TREE.fullmatch(path)
        if ours is None:
            return
        crate, module = ours[1], ours[2]
        made = re.match(r"(?:declared|contracts)\.(.+)", module)
        if made:
            # (the compiler makes these of the types and constants of src/)
            rust = [it for it in made[1].split(".") if it not in ("TheVariants", "lib")]
            rust = [*rust[:-1], name] if rust[-1] == "TheConstants" else rust
            found = self.named(rust, self.tree.crates[crate]) if crate in self.tree.crates else None
            if found is None:
                self.lost.append(f"{name or path}, which {by.name} cites from {path}")
            self.item(found)
            return
        home = f"{crate} {module}"
        # (a crate may pass on the definitions of a lower one)
        found = self.tree.definition(where) or self.variant(home, name)
        if found is None:
            self.lost.append(f"{name or path}, which {by.name} cites from {path}")
        else:
            self.definition(found)

    def variant(self, home, name):
        """The definition of a module of which a word is a variant."""
        head = re.compile(rf"(pub )?data .*(?<!\S){re.escape(name)} : ")
        return next((it for (there, _), it in self.tree.definitions.items() if there == home and head.match(it.parts[0])), None)

    def definition(self, it):
        if (it.home, it.name) in self.words:
            return
        self.words[it.home, it.name] = it
        for where in it.words.values():
            self.word(where, it)
        for name in tokens(it.parts):
            beside = self.tree.definitions.get((it.home, name))
            if beside is not None:
                self.definition(beside)

    @property
    def every(self):
        return [it for some in (self.calls, self.words, self.types, self.limits) for it in some.values()]


def modules_of(tree):
    """Each module of a tree by its path."""
    left = list(tree.crates.values())
    while left:
        module = left.pop()
        yield module.path, module
        left += [it for it in module.names.values() if getattr(it, "parent", None) is module]


def tokens(parts):
    """The words of some texts, but what follows a dot, which is a field."""
    bare = [re.sub(r'"(?:\\.|[^"\\])*"', '""', part) for part in parts]
    found = {it[0] for part in bare for it in WORD.finditer(part) if part[it.start() - 1:it.start()] != "."}
    return found | ({">>="} if "←" in found else set())


def tiers(tree, roots):
    """What each tier rests on and no tier before it does, by its heading."""
    found, before = {}, set()
    for heading, some in roots.items():
        found[heading] = one = Closure(tree, some)
        for taken in (one.words, one.types, one.limits):
            for key in taken.keys() & before:
                del taken[key]
            before |= taken.keys()
    return found


def by_place(found):
    return sorted(found, key=lambda it: (it.file, it.line))


def told(words):
    """How many definitions these are, as THEOREM.md says it."""
    return f"{len(words)} definitions, {sum(it.size for it in words):,} lines in {len({it.file for it in words})} files"


def source(it, files):
    """The lines of a definition that has no others that are not public, without comments."""
    lines = files[it.file].split("\n")[it.line - 1:]
    return "".join(f"{line}\n" for line in [line for line in lines if line.strip() and not line.lstrip().startswith("--")][:it.size])


def comment(it, files):
    """The comment above a definition or a type, in one line."""
    above, lines = [], files[it.file].split("\n")[:it.line - 1]
    while lines and lines[-1].startswith("#["):
        lines.pop()
    for line in map(str.lstrip, reversed(lines)):
        if not re.match(r"(--|///)( |$)", line):
            break
        above.insert(0, line.lstrip("-/ "))
    return " ".join(above)


def differences(page, files, tree, roots, counted, quoted):
    """What a page says otherwise than a tree, whose tiers begin with these roots."""
    found, sections = tiers(tree, roots), {}
    for part in re.split(r"(?m)^## ", page)[1:]:
        sections[part.partition("\n")[0]] = part
    wanted, given, rows = {}, {}, {}
    for heading, one in found.items():
        yield from (f"there is no {lost}" for lost in one.lost)
        for it in one.every:
            wanted.setdefault((it.name, it.file), []).append(heading)
    for heading, part in sections.items():
        for entry in ENTRY.finditer(part):
            for name in LISTED.findall(entry[1] or entry[2]):
                given.setdefault(name, []).append(heading)
                rows[name] = entry[0]
    for name, file in sorted(wanted.keys() | given.keys()):
        here, there = given.get((name, file), []), wanted.get((name, file), [])
        if here != there:
            yield f"{name} of {file} is listed in {here}, not in {there}"
    for one in found.values():
        for it in one.limits.values():
            number = next(part.rpartition(" = ")[2] for part in it.parts if NUMBER.match(part))
            number = f"{int(number):,}" if re.fullmatch(r"[\d_]+", number) else f"`{number}`"
            if f" {number} " not in rows.get((it.name, it.file), f" {number} "):
                yield f"{it.name} is not said to be {number}"
    words = {(it.name, it.file): it for one in found.values() for it in one.words.values()}
    quotes = QUOTE.findall(page)
    if sorted(name for name, *_ in quotes) != sorted(quoted) or page.count("```") != 2 * len(quotes):
        yield f"quoted are {sorted(name for name, *_ in quotes)}, not {sorted(quoted)}"
    for name, file, sentence, quote in quotes:
        if (name, file) not in words or quote != source(words[name, file], files):
            yield f"{name} is not quoted as its source has it"
        if not re.search(r"\bRFC \d", sentence):
            yield f"{name} is quoted without the RFC that it follows"
    calls = {heading: Closure(tree, [path]) for heading, path in counted.items()}
    yield from (f"there is no {lost}" for one in calls.values() for lost in one.lost)
    of_all = (page.partition("\n## ")[0], words)
    for place, some in [of_all, *[(sections.get(heading, ""), one.words) for heading, one in (found | calls).items()]]:
        if COUNT.findall(place) != [told(some.values())]:
            yield f"says {' and '.join(COUNT.findall(place)) or 'nothing'}, not {told(some.values())}"
    for heading, one in calls.items():
        beyond = f"{sum((it.name, it.file) not in words for it in one.words.values())}"
        if BEYOND.findall(sections.get(heading, "")) != [beyond]:
            yield f"says that {' and '.join(BEYOND.findall(sections.get(heading, ''))) or 'nothing'} are not listed above, not {beyond}"


def theorem(checks):
    """THEOREM.md says README's sentence, and lists, quotes and counts exactly what its tiers rest on; MODEL.md has other definitions."""
    pages = ("THEOREM.md", "README.md", "docs/believe/MODEL.md")
    text, readme, model = (open(os.path.join(TOP, name), encoding="utf-8").read() for name in pages)
    low = Tree(SMALL)
    small = Closure(low, ["cspf_low::take", "cspf_low::put", "cspf_low.specs.Orders.down"])
    checks.same("what the call of a small tree rests on", sorted(it.name for it in small.every), SMALL_RESTS)
    checks.same("how many definitions", told(small.words.values()), "6 definitions, 15 lines in 2 files")
    checks.same("what isn't there", small.lost, ["call cspf_low::put", "definition cspf_low.specs.Orders.down"])
    comments = {it.name: comment(it, SMALL) for it in small.every}
    found = [comments[name] for name in ("IsTakenFrom", "take", "Shelf")]
    checks.same("the comments of definitions", found, ["the first one is taken", "IsUncited", ""])
    of_small = lambda page: list(differences(page, SMALL, low, SMALL_TIERS, {"All": "cspf_low::take"}, {"IsFew"}))
    checks.same("what is wrong with a page of that tree", of_small(SMALL_PAGE), [])
    for old, new, fault in SMALL_FAULTS:
        checks.same(f"the page has {old.strip()} once", SMALL_PAGE.count(old), 1)
        faults = of_small(SMALL_PAGE.replace(old, new))
        checks.true(f"a page with {new!r} for {old!r} has this fault: {fault}", fault in faults, faults)
    files = present(TOP)
    tree = Tree(files)
    sentence = " ".join(re.findall(r"(?m)^> (.*)$", text))
    checks.true("THEOREM.md has README's sentence", sentence and sentence in readme, sentence)
    found = tiers(tree, TIERS)
    for heading, one in found.items():
        checks.true(f"the tier {heading} has definitions", len(one.words) > 20, len(one.words))
    for fault in differences(text, files, tree, TIERS, COUNTED, QUOTED):
        checks.fail(f"THEOREM.md: {fault}")
    heads = [name for line in re.findall(r"(?m)^(?:- |\| )(`.*?)(?:: |\. | \| )", model) for name in re.findall(r"`([^`]+)`", line)]
    checks.true("docs/believe/MODEL.md has definitions", len(heads) > 300, len(heads))
    for name in sorted({it.name for one in found.values() for it in one.words.values()}):
        checks.true(f"docs/believe/MODEL.md leaves {name} to THEOREM.md", name not in heads)


def main():
    signal.signal(signal.SIGPIPE, signal.SIG_DFL)  # whoever reads the list may stop
    words = argparse.ArgumentParser(description=__doc__, formatter_class=argparse.RawDescriptionHelpFormatter)
    words.add_argument("--of", metavar="CALL", help="a public function by its name, or by its path as cspf_serve::run_serve")
    call = words.parse_args().of
    files = present(TOP)
    tree = Tree(files)
    found = tiers(tree, TIERS)
    listed = {(it.home, it.name) for one in found.values() for it in one.every}
    if call:
        paths = sorted({it.paths[0] for it in tree.contracts if call in {*it.paths, *[path.rpartition("::")[2] for path in it.paths]}})
        if len(paths) != 1:
            words.error(f"{call} is {' and '.join(paths) or 'no public function'}")
        found = {paths[0]: Closure(tree, paths)}
    for heading, one in found.items():
        print(f"{heading}: {told(one.words.values())}; {len(one.types)} types and {len(one.limits)} limits\n")
        for what, some in (("", one.words), ("type ", one.types), ("limit ", one.limits)):
            for it in by_place(some.values()):
                is_listed = call and (it.home, it.name) in listed
                print(f"{what}{it.name} ({it.where}){', in THEOREM.md' if is_listed else ''}")
                if call and not is_listed and comment(it, files):
                    print(f"    {comment(it, files)}")
        print()
        for text in one.lost:
            print(f"tests/gate/theorem.py: there is no {text}", file=sys.stderr)
    return 1 if any(one.lost for one in found.values()) else 0


if __name__ == "__main__":
    sys.exit(main())
