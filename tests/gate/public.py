"""The public contracts of the crates and the definitions of their specs/, read from the texts of a tree, and how two trees differ.

A tree is a dictionary from paths, as crates/NAME/src/lib.rt, to texts. Crates of tests and of measurements, programs and what stands
under #[cfg(test)] have no public contracts. A contract is known by the paths by which a caller can name it, through `pub mod` and
`pub use`, those of other crates of the tree too. Neither comments nor white space count, nor the order of clauses, nor attributes
that only say how it is proved.
"""
import os
import re

from gate.reading import CLAUSES, WORD, Contract, Item, Module, Reader, Use, imported, named

LEFT_OUT = re.compile(r"_(tests|bench)$")
HEAD = re.compile(r"((?:(?:pub|abbrev|unfoldable|opaque|data|record|axiom)\s+)*)([^\s:(){},]+)")
READ = (".rt", ".antt")


def present(top):
    """The texts of the crates of a folder as they are."""
    found = {}
    for at, folders, files in os.walk(os.path.join(top, "crates")):
        folders[:] = [it for it in folders if it != "out" or "/specs" in at or "/proofs" in at or "/src" in at]
        for name in files:
            if name.endswith(READ):
                with open(os.path.join(at, name), encoding="utf-8") as file:
                    found[os.path.relpath(os.path.join(at, name), top)] = file.read()
    return found


class Tree:
    """The public contracts and the definitions of a tree."""

    def __init__(self, files):
        self.crates, self.contracts, self.definitions = {}, [], {}
        names = sorted({it.split("/")[1] for it in files if it.startswith("crates/") and it.count("/") > 1})
        names = [it for it in names if not LEFT_OUT.search(it)]
        for name in names:
            root = f"crates/{name}/src/lib.rt"
            if root in files:
                self.crates[name] = Module(None, name, True)
                read = Reader(root, files[root], files)
                read.items(0, len(read.tokens), self.crates[name], {})
        for crate in self.crates.values():
            self.give_impls(crate)
        by_item = {}
        for crate in self.crates.values():
            self.visit(crate, crate.name, by_item, {crate})
        for item, paths in by_item.items():
            for contract, ending in [(item.contract, ""), *[(it.contract, end) for it in item.more for end in [ending_of(item, it)]]]:
                contract.paths = [path + ending for path in paths]
                self.contracts.append(contract)
        for path, text in sorted(files.items()):
            crate = path.split("/")[1] if path.startswith("crates/") else ""
            if crate in names and "/specs/" in path and path.endswith(".antt"):
                for it in definitions(crate, path, text):
                    self.definitions[it.home, it.name] = it
        # (of the numbers that no caller can name those count that a contract or a definition names)
        cited = {word[0] for it in [*self.contracts, *self.definitions.values()] for part in it.parts for word in WORD.finditer(part)}
        for crate in self.crates.values():
            for it in constants(crate):
                if it.name in cited and it.name != "_" and not it.paths:
                    self.definitions[f"{crate.name} {it.home.partition('::')[2] or 'lib'}", it.name] = it
                    it.home = f"{crate.name} {it.home.partition('::')[2] or 'lib'}"
        self.by_name = {}
        for it in self.definitions.values():
            self.by_name.setdefault(it.name, []).append(it)

    def resolve(self, path, module, depth=0):
        """What stands at a path that is written in a module, if it is of this tree."""
        if depth > 20 or not path:
            return None
        root = module
        while root.parent:
            root = root.parent
        first, rest = path[0], path[1:]
        if first in ("crate", "self"):
            found = root if first == "crate" else module
        elif first == "super":
            found = module.parent
        else:
            found = module.names.get(first) or self.crates.get(first)
            if isinstance(found, Use):
                # (`use a::b` may name a crate of its own first word)
                found = self.crates.get(first) if found.path == path[:1] else self.resolve(found.path, module, depth + 1)
        for name in rest:
            if not isinstance(found, Module):
                return found if isinstance(found, Item) else None
            home, found = found, found.names.get(name)
            if isinstance(found, Use):
                found = self.resolve(found.path, home, depth + 1)
        return found

    def give_impls(self, module):
        """Gives each type what its impls say, and a trait what impls for types of elsewhere say."""
        for path, of_trait, header, said, found in module.impls:
            owner, name = self.resolve(path, module), path[-1]
            trait = None if isinstance(owner, Item) or not of_trait else self.resolve(re.split("<", of_trait)[0].strip().split("::"),
                                                                                      module)
            if isinstance(owner, Item):
                for it in found:
                    # (with no clauses of its own a method has the trait's)
                    if it.is_public and not of_trait or of_trait and any(part.startswith(CLAUSES) for part in it.contract.parts):
                        it.contract.name = f"{owner.contract.name}{f' as {of_trait}' if of_trait else ''}::{it.contract.name}"
                        owner.more.append(it)
                if of_trait:
                    given = re.search("<.*>", header.partition(" for ")[2])  # one trait may be for a type with several arguments
                    said.name = f"{owner.contract.name}{given[0] if given else ''} as {of_trait}"
                    owner.more.append(Item(said, True))
            elif isinstance(trait, Item):
                said.name = f"{trait.contract.name} for {header.partition(' for ')[2] or name}"
                trait.more.append(Item(said, True))
        for it in module.names.values():
            if isinstance(it, Module):
                self.give_impls(it)

    def visit(self, module, path, by_item, seen):
        """Notes by which paths each public item below a module is named."""
        for name, it in module.names.items():
            if not it.is_public:
                continue
            if isinstance(it, Use):
                it = self.resolve(it.path, module)
            if isinstance(it, Item):
                by_item.setdefault(it, []).append(f"{path}::{name}")
            elif isinstance(it, Module) and it not in seen:
                self.visit(it, f"{path}::{name}", by_item, seen | {it})

    def definition(self, where):
        """The definition that an imported word names, if it is of this tree: that of its path, or else the only one of its name."""
        path, name = where
        found = re.fullmatch(r"Rattle\.(\w+)\.specs\.(.+)", path)
        exact = self.definitions.get((f"{found[1]} {found[2]}", name)) if found else None
        alike = self.by_name.get(name, []) if found else []
        return exact or (alike[0] if len(alike) == 1 else None)


def constants(module):
    """The constants of a module and those below it."""
    for it in module.names.values():
        if isinstance(it, Module):
            yield from constants(it)
        elif isinstance(it, Item) and any(re.match(r"(const|static) ", part) for part in it.contract.parts):
            yield it.contract


def ending_of(item, more):
    """How a member is named behind its owner's path."""
    name = more.contract.name
    return "::" + name.partition("=>")[2] if "=>" in name else name[len(item.contract.name):]


def flat(lines):
    """The lines with their numbers, and the parameters that they have: those of the modules without a name in which they stand. Such lines
    are moved to the left by the depth of these modules."""
    heads, begun = [], None
    for number, line in enumerate(lines, 1):
        if not line.strip():
            continue
        while heads and not line.startswith("  " * len(heads)):
            heads.pop()
        line = line[2 * len(heads):]
        if begun is not None or line.startswith("module _ "):
            begun = f"{begun or ''} {line.strip()}".strip()
            if begun.endswith(" where"):
                heads.append(begun[len("module _ "):-len(" where")])
                begun = None
        else:
            yield number, line, heads[:]


def definitions(crate, path, text):
    """The definitions of one file of specs/; those that are not public stand in the texts of those that name them. One in a module without
    a name has the module's parameters at the front of its text."""
    module = path.partition("/specs/")[2][:-len(".antt")].replace("/", ".")
    words, found, current = {}, [], None
    lines = re.sub(r"(?m)(^|[ \t])--(?=\s|$).*$", "", text).split("\n")
    for number, line, parameters in flat(lines):
        if line[0] in " \t}":
            if current is not None:
                current[1].append(line)
            continue
        if re.match(r"(pub\s+)?(use|open)\s", line):
            current = (number, [line], "use", True, parameters)
            found.append(current)
            continue
        if re.match(r"(pub\s+)?mod\s", line):
            current = None
            continue
        head = HEAD.match(line)
        first = line.split()[0]
        name = re.sub(r"^(infix[lr]?)$", first + " " + line.split()[-1], head[2]) if first.startswith("infix") else head[2]
        if current is None or current[2] != name or head[1]:
            current = (number, [], name, "pub" in head[1].split() or first.startswith("infix"), parameters)
            found.append(current)
        current[1].append(line)
    made, texts = [], {}
    for number, piece, name, is_public, parameters in found:
        whole = re.sub(r"\s+", " ", " ".join(piece)).strip()
        if name == "use":
            words.update(imported(re.sub(r"^(pub )?(use|open) ", "", whole)))
        else:
            made.append((number, name, is_public, "\n".join(re.sub(r"\s+", " ", it) for it in [*parameters, *joined(piece)]), len(piece)))
    sizes = {}
    for _, name, is_public, whole, size in made:
        if not is_public:
            texts.setdefault(name, []).append(whole)
            sizes[name] = sizes.get(name, 0) + size
    for number, name, is_public, whole, size in made:
        if is_public:
            parts, taken = [whole], set()
            while True:
                there = {it[0] for part in parts for it in WORD.finditer(part)}
                more = [it for it in texts if it in there and it not in taken]
                if not more:
                    break
                taken.update(more)
                parts += [text for it in more for text in texts[it]]
            texts_here, used = named(parts, words)
            one = Contract(name, [line for part in texts_here for line in part.split("\n")], used, path, number, f"{crate} {module}")
            one.size = size + sum(sizes[it] for it in taken)
            yield one


def joined(lines):
    """Lines with those that go on joined to those before them."""
    made = []
    for line in lines:
        if made and line[0] in " \t}":
            made[-1] += " " + line.strip()
        else:
            made.append(line.strip())
    return made


class Comparison:
    """How a tree differs from one before."""

    def __init__(self, before, after):
        self.before, self.after, self.lines = before, after, []
        self.contracts = self.compare_contracts()
        self.definitions = self.compare_definitions()

    @property
    def is_alike(self):
        return not any(it[kind] for it in (self.contracts, self.definitions) for kind in ("gone", "changed"))

    def say(self, kind, text, *more):
        self.lines.append("\n".join([f"{kind:8} {text}", *[f"    {it}" for it in more]]))

    def difference(self, one, other):
        """The parts and the words in which two contracts differ, marked by - and +."""
        lines = [f"- {it}" for it in one.parts if it not in other.parts or one.parts.count(it) > other.parts.count(it)]
        lines += [f"+ {it}" for it in other.parts if it not in one.parts or other.parts.count(it) > one.parts.count(it)]
        if not lines and one.parts != other.parts:
            lines = [f"- in this order: {' | '.join(one.parts)}", f"+ in this order: {' | '.join(other.parts)}"]
        for word in sorted(one.words.keys() & other.words.keys()) if not lines else ():
            was, now = one.words[word], other.words[word]
            if was != now and not self.is_same_word(was, now):
                lines += [f"- {word} of {was[0]}", f"+ {word} of {now[0]}"]
        return lines

    def is_same_word(self, was, now):
        """Whether a word that is imported from elsewhere still means the same."""
        one, other = self.before.definition(was), self.after.definition(now)
        if one and other:
            return one.parts == other.parts or (one.home, one.name) == (other.home, other.name)
        # (a type of a crate goes where its crate's source goes, and is compared by itself)
        made = lambda it: re.fullmatch(r"Rattle\.(\w+)\.specs\.(declared|contracts)\..*", it[0]) is not None
        return made(was) and made(now) and was[0].rpartition(".")[2] == now[0].rpartition(".")[2]

    def compare_contracts(self):
        before, after = ({path: it for it in tree.contracts for path in it.paths} for tree in (self.before, self.after))
        alike, counts, matched = {}, dict.fromkeys(("compared", "moved", "new", "gone", "changed"), 0), set()
        for it in self.after.contracts:
            alike.setdefault((it.name, tuple(it.parts)), []).append(it)
        for one in self.before.contracts:
            counts["compared"] += 1
            lost = [it for it in one.paths if it not in after]
            kinds = set()
            for path in lost:
                # (a new path to the same is no new contract)
                twins = [it for it in alike.get((one.name, tuple(one.parts)), []) if not any(path in before for path in it.paths)]
                matched.update(twins[:1])
                stands = [f"the same contract is now {' and '.join(it.paths)} ({it.where}), and this path leads nowhere"
                          for it in twins[:1]]
                self.say("gone", f"{path} ({one.where})", *(stands or [f"- {it}" for it in one.parts]))
                kinds.add("gone")
            for path in one.paths:
                other = after.get(path)
                if other is None or other in [after.get(it) for it in one.paths[:one.paths.index(path)]]:
                    continue
                lines = self.difference(one, other)
                if lines:
                    self.say("changed", f"{path} ({other.where})", *lines)
                    kinds.add("changed")
                elif one.home != other.home:
                    self.say("moved", f"{path}: {one.file} to {other.where}")
                    kinds.add("moved")
            for kind in ("gone", "changed", "moved"):
                if kind in kinds:
                    counts[kind] += 1
                    break
        for it in self.after.contracts:
            if it not in matched and not any(path in before for path in it.paths):
                self.say("new", f"{it.paths[0]} ({it.where})")
                counts["new"] += 1
        return counts

    def compare_definitions(self):
        before, after = self.before.definitions, self.after.definitions
        counts, matched = dict.fromkeys(("compared", "moved", "new", "gone", "changed"), 0), set()
        for key, one in before.items():
            counts["compared"] += 1
            other, label = after.get(key), f"definition {one.name} of {one.home}"
            if other is None:
                named = [it for it in self.after.by_name.get(one.name, []) if (it.home, it.name) not in before and it not in matched]
                same = [it for it in named if not self.difference(one, it)]
                other = (same or (named if len(named) == 1 else [None]))[0]
                matched.add(other)
                if other is None:
                    self.say("gone", f"{label} ({one.where})", *[f"- {it}" for it in one.parts])
                    counts["gone"] += 1
                    continue
                label += f", now of {other.home}"
            lines = self.difference(one, other)
            if lines:
                self.say("changed", f"{label} ({other.where})", *lines)
                counts["changed"] += 1
            elif one.home != other.home:
                self.say("moved", f"{label} ({other.where})")
                counts["moved"] += 1
        for key, it in after.items():
            if key not in before and it not in matched:
                self.say("new", f"definition {it.name} of {it.home} ({it.where})")
                counts["new"] += 1
        return counts
