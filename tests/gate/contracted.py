"""Checks that what a change does to the public contracts of a small tree is told (tests/contracts reads them)."""
from gate.public import Comparison, Tree

SMALL = {
    "crates/low/src/lib.rt": "mod shelf;\n\npub use shelf::{LEAST, Shelf, put, take};\n\n#[cfg(test)]\nmod tests;\n",
    "crates/low/src/shelf.rt": """ghost use Rattle.std.specs.Prelude.{◌≡◌, ◌<◌, length};
ghost use Rattle.low.specs.Shelves.{IsSorted as Sorted, room_of};

/// As many as fit.
const MOST: usize = 16;

/// As few as there are.
pub const LEAST: usize = 2;

/// Numbers.
#[derive(Drop)]
pub struct Shelf {
    numbers: Vec<u8>,
    /// What it is called.
    pub label: u8,
    ghost few: { length numbers.items < MOST },
}

impl Shelf {
    /// The number at an index.
    pub fn get(&self, at: usize) -> u8
        requires { at < length self.now.numbers.items }
        ensures value { result ≡ slice_index self.now.numbers.items at } // "at {
        ensures sorted { Sorted self.now.numbers.items }
    {
        self.numbers[at]
    }

    fn spare(&self) -> usize {
        '}'.len_utf8()
    }
}

/// Puts a number.
pub fn put(shelf: &mut Shelf, number: u8) -> bool
    ensures { result ≡ (number < 9) }
{
    shelf.numbers.try_push(number)
}

/// Takes one.
pub fn take<T: Into<u8>>(shelf: &mut Shelf, from: T) -> Option<u8>
    ensures { result ≡ room_of shelf.old }
{
    None
}
""",
    "crates/low/specs/Lib.antt": "pub mod Shelves\n",
    "crates/low/specs/Shelves.antt": """use Rattle.std.specs.Prelude.{ℕ, List}

-- each below the next
abbrev pub IsSorted : List ℕ → Type 0
IsSorted [] = Unit {0}
IsSorted (a ∷ rest) = below a rest × IsSorted rest

abbrev below : ℕ → List ℕ → Type 0
below a rest = a < first rest

-- what is left
abbrev pub room_of : Shelf → ℕ
room_of s = 16 - length s.numbers.items
""",
    "crates/top/src/lib.rt": "pub mod shelves {\n    pub use low::{Shelf, put as set};\n}\n",
}
LIB, SHELF, WORDS, TOP = "crates/low/src/lib.rt", "crates/low/src/shelf.rt", "crates/low/specs/Shelves.antt", "crates/top/src/lib.rt"
PUT = SMALL[SHELF][SMALL[SHELF].index("/// Puts"):SMALL[SHELF].index("/// Takes")]
GET = "low::Shelf::get"
# Each with the pairs of texts that are put in place of one another, the files that come, and what is told, without the lines of the texts.
PLANTS = [
    ("nothing", [], {}, []),
    ("comments, lines and proofs", [(SHELF, "/// Puts a number.\n", "// Puts {.\n#[tactic(auto)]\n"),
                                    (SHELF, "fn put(shelf: &mut Shelf, number: u8)", "fn put(\n    shelf: &mut Shelf,\n    number: u8,\n)"),
                                    (SHELF, "try_push", "push"), (WORDS, "-- what is left", "-- what remains")], {}, []),
    ("a clause less", [(SHELF, "        ensures sorted { Sorted self.now.numbers.items }\n", "")], {}, [("changed", GET)]),
    ("a looser number", [(SHELF, "(number < 9)", "(number < 10)")], {}, [("changed", "low::put")]),
    ("another public number", [(SHELF, "LEAST: usize = 2", "LEAST: usize = 3")], {}, [("changed", "low::LEAST")]),
    ("another private number that a contract names", [(SHELF, "MOST: usize = 16", "MOST: usize = 17")], {},
     [("changed", "definition MOST")]),
    ("one more requires", [(SHELF, "-> bool\n", "-> bool\n    requires { number < 8 }\n")], {}, [("changed", "low::put")]),
    ("another parameter", [(SHELF, "number: u8) -> bool", "number: u16) -> bool")], {}, [("changed", "low::put")]),
    ("a public field that becomes private", [(SHELF, "pub label", "label")], {}, [("changed", "low::Shelf")]),
    ("another ghost field", [(SHELF, "items < MOST", "items ≤ MOST")], {}, [("changed", "low::Shelf")]),
    ("a private function", [(SHELF, "fn spare", "fn spares")], {}, []),
    ("a function less", [(SHELF, PUT, ""), (LIB, "Shelf, put, take", "Shelf, take"), (TOP, ", put as set", "")], {},
     [("gone", "low::put"), ("gone", "top::shelves::set")]),
    ("a function that no path names", [(LIB, "Shelf, put, take", "Shelf, take")], {},
     [("gone", "low::put"), ("gone", "top::shelves::set")]),
    ("a path less", [(TOP, ", put as set", "")], {}, [("gone", "top::shelves::set")]),
    ("a function that goes to another file", [(SHELF, PUT, ""), (LIB, "mod shelf;", "mod hand;\nmod shelf;\npub use hand::put;"),
                                              (LIB, "Shelf, put, take", "Shelf, take")],
     {"crates/low/src/hand.rt": f"ghost use Rattle.std.specs.Prelude.{{◌≡◌, ◌<◌}};\n{PUT}"}, [("moved", "low::put")]),
    ("a function that goes to another crate", [(SHELF, PUT, ""), (LIB, "mod shelf;", "mod shelf;\npub use lower::put;"),
                                               (LIB, "Shelf, put, take", "Shelf, take")],
     {"crates/lower/src/lib.rt": f"ghost use Rattle.std.specs.Prelude.{{◌≡◌, ◌<◌}};\n{PUT}"}, [("moved", "low::put")]),
    ("a function that goes, weaker, to another file",
     [(SHELF, PUT, ""), (LIB, "mod shelf;", "mod hand;\nmod shelf;\npub use hand::put;"), (LIB, "Shelf, put, take", "Shelf, take")],
     {"crates/low/src/hand.rt": PUT.replace("9", "10")}, [("changed", "low::put")]),
    ("a new function", [(LIB, "LEAST, ", "LEAST, more, "), (SHELF, "/// Takes", "pub fn more() {}\n\n/// Takes")], {},
     [("new", "low::more")]),
    ("another definition", [(WORDS, "16 - length", "17 - length")], {}, [("changed", "definition room_of")]),
    ("a definition with another private one", [(WORDS, "a < first", "a ≤ first")], {}, [("changed", "definition IsSorted")]),
    ("a definition less", [(WORDS, "abbrev pub room_of", "abbrev room_of")], {}, [("gone", "definition room_of")]),
    ("definitions that go to another crate", [(SHELF, "Rattle.low.specs", "Rattle.lower.specs")],
     {"crates/lower/specs/Shelves.antt": SMALL[WORDS], WORDS: ""},
     [("moved", "definition IsSorted"), ("moved", "definition room_of")]),
    ("a word that is another definition's", [(SHELF, "low.specs.Shelves.{IsSorted as Sorted, room_of}",
                                              "low.specs.Shelves.{IsSorted as Sorted};\nghost use Rattle.low.specs.Others.{room_of}")],
     {"crates/low/specs/Others.antt": "abbrev pub room_of : Shelf → ℕ\nroom_of s = 0\n"},
     [("changed", "low::take"), ("new", "definition room_of")]),
    ("a name for a word that is another's", [(SHELF, "IsSorted as Sorted", "IsSorted, IsAny as Sorted")], {}, [("changed", GET)]),
    ("tests, programs and measurements", [], {"crates/low/src/tests.rt": "pub fn t() {}\n",
                                              "crates/low_tests/src/lib.rt": "pub fn t() {}\n",
                                              "crates/run_bench/src/lib.rt": "pub fn t() {}\n",
                                              "crates/run/src/main.rt": "pub fn t() {}\n"}, []),
]


def contracted(checks):
    """Each plant is told as what it is, and nothing else is."""
    before = Tree(SMALL)
    checks.same("the contracts of a small tree", sorted(path for it in before.contracts for path in it.paths),
                sorted(["low::LEAST", "low::Shelf", GET, "low::put", "low::take", "top::shelves::Shelf", "top::shelves::Shelf::get",
                        "top::shelves::set"]))
    for name, pairs, more, wanted in PLANTS:
        files = {**SMALL, **more}
        for path, old, new in pairs:
            if files[path].count(old) != 1:
                checks.fail(f"{name}: {old!r} is in {path} {files[path].count(old)} times")
            files[path] = files[path].replace(old, new)
        found = Comparison(before, Tree(files))
        told = [(kind, re_of(text)) for kind, text in (line.split("\n")[0].split(None, 1) for line in found.lines)]
        checks.same(f"contracts: {name}", sorted(told), sorted(wanted))
        checks.same(f"contracts: status at {name}", found.is_alike, not any(kind in ("gone", "changed") for kind, _ in wanted))


def re_of(text):
    """What a line is about."""
    words = text.split()
    return " ".join(words[:2]) if words[0] == "definition" else words[0].rstrip(":")
