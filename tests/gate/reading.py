"""Reads the public items of Rust sources: their signatures, clauses and members, as texts that can be compared."""
import re

TOKEN = re.compile(
    r"""(?P<blank>(?:\s+|//[^\n]*|/\*.*?\*/)+)|(?P<token>b?r(?P<fence>\#*)".*?"(?P=fence)|b?"(?:\\.|[^"\\])*"|b?'(?:\\[^']*'|[^'\\]')|'\w+
    |\w+'*|->|=>|::|.)""", re.S | re.X)
BRACKETS = {"(": ")", "[": "]", "{": "}"}
CLAUSES = ("requires", "ensures", "ghost")
BEFORE = ("const", "unsafe", "extern", "async", "final", "default")
HOW = re.compile(r"#\s*!?\s*\[\s*(tactic|inline|cold|cycle|allow|doc|rustfmt)\b")
OF_TESTS = re.compile(r"#\[(cfg\(test\)|test)\]")
WORD = re.compile(r"[^\s(){}\[\],;.]+")


class Contract:
    """What is said of one item: its parts, and the imported words of specs/ that they name, by where these come from."""

    def __init__(self, name, parts, words, file, line, home):
        self.name, self.parts, self.words = name, parts, words
        self.file, self.line, self.home, self.paths = file, line, home, []
        self.size = 0  # of a definition: its lines that are no comments

    @property
    def where(self):
        return f"{self.file}:{self.line}"


class Module:
    def __init__(self, parent, name, is_public):
        self.parent, self.name, self.is_public = parent, name, is_public
        self.names, self.impls = {}, []

    @property
    def path(self):
        return f"{self.parent.path}::{self.name}" if self.parent else self.name


class Use:
    """A name for what stands at another path."""

    def __init__(self, path, is_public):
        self.path, self.is_public = path, is_public


class Item:
    """A type, trait, function or constant, and what its impls say, by the name that follows its own."""

    def __init__(self, contract, is_public):
        self.contract, self.is_public, self.more = contract, is_public, []


def spaced(tokens):
    """The text of tokens, in one line."""
    return "".join((" " if blank and at else "") + token for at, (token, blank, _) in enumerate(tokens))


def plain(text):
    """Rust text as it is however its lines are broken."""
    text = re.sub(r"(?<=[(\[<])\s+|,?\s+(?=[)\]])|,(?=[)\]>])|,?\s+(?=>(?!=))", "", text)
    return re.sub(r",\s*}", " }", text)


class Reader:
    """Reads the items of one file into its module."""

    def __init__(self, path, text, files):
        self.path, self.files, self.tokens = path, files, []
        blank, line = False, 1
        for found in TOKEN.finditer(text):
            if found["blank"] is None:
                self.tokens.append((found["token"], blank, line))
            blank = found["blank"] is not None
            line += found[0].count("\n")

    def at(self, i):
        return self.tokens[i][0] if i < len(self.tokens) else ""

    def close(self, i):
        """The index of the bracket that closes the one at an index."""
        open_ones = []
        for at in range(i, len(self.tokens)):
            token = self.tokens[at][0]
            if token in BRACKETS:
                open_ones.append(BRACKETS[token])
            elif open_ones and token == open_ones[-1]:
                open_ones.pop()
                if not open_ones:
                    return at
        raise ValueError(f"{self.path}:{self.tokens[i][2]}: nothing closes this {self.tokens[i][0]}")

    def until(self, i, ends):
        """The index of the first of these tokens outside brackets and angles."""
        angles = 0
        while i < len(self.tokens) and (angles > 0 or self.at(i) not in ends):
            angles += {"<": 1, ">": -1}.get(self.at(i), 0)
            i = (self.close(i) if self.at(i) in BRACKETS else i) + 1
        return i

    def text(self, i, end):
        return plain(spaced(self.tokens[i:end]))

    def split(self, i, end):
        """The pieces between commas."""
        while i < end:
            at = self.until(i, (",", "}", ")"))
            yield i, min(at, end)
            i = at + 1

    def attributes(self, i):
        """What follows the attributes at an index, those that a caller can see, and whether they are of tests."""
        kept, tests = [], False
        while self.at(i) == "#":
            end = self.close(i + 2 if self.at(i + 1) == "!" else i + 1) + 1
            text = self.text(i, end)
            tests |= bool(OF_TESTS.match(text))
            derived = re.fullmatch(r"#\[derive\((.*)\)\]", text)
            text = f"#[derive({', '.join(sorted(re.split(', *', derived[1])))})]" if derived else text
            kept += [text] if not HOW.match(text) and not text.startswith("#!") else []
            i = end
        return i, sorted(kept), tests

    def visibility(self, i):
        if self.at(i) != "pub":
            return i, False
        return (self.close(i + 1) + 1, False) if self.at(i + 1) == "(" else (i + 1, True)

    def items(self, i, end, module, words):
        """Reads the items between two indices into a module; words are what `ghost use` imported so far."""
        while i < end:
            i, kept, tests = self.attributes(i)
            if i >= end:
                return
            start = i
            i, is_public = self.visibility(i)
            word, line = self.at(i), self.tokens[i][2]
            if word == "ghost" and self.at(i + 1) == "use":
                i = self.imports(i + 2, words)
            elif word == "use":
                stop = self.until(i, (";",))
                for name, path in uses(spaced(self.tokens[i + 1:stop])):
                    if not tests:
                        module.names.setdefault(name, Use(path, is_public))
                i = stop + 1
            elif word == "mod":
                i = self.module(i + 1, module, is_public, words, tests)
            elif word in ("macro_rules",) or self.at(i + 1) == "!":
                i = self.close(next(at for at in range(i, end) if self.at(at) in BRACKETS)) + 1
                i += self.at(i) == ";"
            elif word == "impl":
                i = self.impl(i, module, words, tests)
            elif word == "extern" and self.at(i + 2) == "{":
                i = self.close(i + 2) + 1
            else:
                i, item = self.item(i, kept, is_public, words, module, line)
                if item and not tests:
                    module.names[item.contract.name] = item
            if i <= start:
                raise ValueError(f"{self.path}:{line}: {word} begins no item that is known")

    def imports(self, i, words):
        """Notes what a `ghost use` brings: where each name comes from."""
        stop = self.until(i, (";",))
        words.update(imported("".join((" " if blank else "") + token for token, blank, _ in self.tokens[i:stop])))
        return stop + 1

    def module(self, i, parent, is_public, words, tests):
        name = self.at(i)
        child = Module(parent, name, is_public)
        if not tests:
            parent.names[name] = child
        if self.at(i + 1) == "{":
            end = self.close(i + 1)
            self.items(i + 2, end, child, dict(words))
            return end + 1
        if not tests:
            folder, _, base = self.path.rpartition("/")
            folder += "" if base in ("lib.rt", "mod.rt") else f"/{base[:-3]}"
            path = next((it for it in (f"{folder}/{name}.rt", f"{folder}/{name}/mod.rt") if it in self.files), None)
            if path is None:
                raise ValueError(f"{self.path}: there is no file of its module {name}")
            read = Reader(path, self.files[path], self.files)
            read.items(0, len(read.tokens), child, {})
        return i + 2

    def item(self, i, kept, is_public, words, module, line, owner=""):
        """Reads one item, and returns what follows it and what it says."""
        start = i
        while self.at(i) in BEFORE and (self.at(i) != "const" or self.at(i + 1) in (*BEFORE, "fn")) or self.at(i).startswith('"'):
            i += 1
        kind, name = self.at(i), self.at(i + 1)
        made = lambda parts: Item(contract_of(owner + name, parts, words, self.path, line, module), is_public)
        if kind == "fn":
            end, parts = self.signature(start, kept)
            has_body = self.at(end) == "{"
            # (a body in a trait is what an impl may leave out)
            parts += ["has a body"] * (has_body and owner.endswith("=>"))
            return (self.close(end) if has_body else end) + 1, made(parts)
        if kind in ("const", "static", "type"):
            end = self.until(i, (";",))
            return end + 1, made([*kept, self.text(start, end)])
        if kind == "ghost":
            end = self.until(i, (";",))
            return end + 1, made([self.text(start, end)])
        if kind in ("struct", "union"):
            end = self.until(i, ("{", "(", ";"))
            if self.at(end) == ";":
                return end + 1, made([*kept, self.text(start, end)])
            close = self.close(end)
            fields = [it for at, to in self.split(end + 1, close) for it in [self.field(at, to, self.at(end) == "(")]]
            hidden = [".. (private fields)"] if None in fields else []
            # (the places of a tuple's fields are their names)
            fields = [it or "_" for it in fields] if self.at(end) == "(" else [it for it in fields if it]
            after = self.until(close + 1, (";",)) if self.at(end) == "(" else close
            return after + 1, made([*kept, self.text(start, end), *fields, *hidden])
        if kind == "enum":
            end = self.until(i, ("{",))
            close = self.close(end)
            variants = [self.text(at, to) for at, to in self.split(end + 1, close)]
            return close + 1, made([*kept, self.text(start, end), *variants])
        if kind == "trait":
            end = self.until(i, ("{",))
            close = self.close(end)
            methods, said = self.members(end + 1, close, dict(words), module, f"{name}=>")
            item = made([*kept, self.text(start, end), *said])
            item.more = methods
            return close + 1, item
        return start, None

    def signature(self, start, kept):
        """A function's signature and clauses, and the index of its body or of the semicolon."""
        end = self.until(start, ("{", ";", *CLAUSES))
        parts, clauses = [*kept, self.text(start, end)], []
        while self.at(end) in CLAUSES:
            at = self.until(end + 1, ("{",))
            close = self.close(at)
            clauses.append(f"{spaced(self.tokens[end:at])} {{ {spaced(self.tokens[at + 1:close])} }}")
            end = close + 1
        return end, parts + sorted(clauses)

    def field(self, i, end, is_tuple):
        i, kept, _ = self.attributes(i)
        at, is_public = self.visibility(i)
        if self.at(at) == "ghost":
            return spaced(self.tokens[at:end])
        return " ".join([*kept, self.text(i, end)]) if is_public else None

    def members(self, i, end, words, module, owner):
        """The functions and constants in the braces of a trait or an impl, each whether it is public, and the texts of its other
        members."""
        found, said = [], []
        while i < end:
            i, kept, tests = self.attributes(i)
            if i >= end:
                break
            at, is_public = self.visibility(i)
            line = self.tokens[at][2]
            if self.at(at) == "ghost" and self.at(at + 1) == "use":
                i = self.imports(at + 2, words)
                continue
            if self.at(at + 1) == "!":
                i = self.close(at + 2) + 1
                i += self.at(i) == ";"
                continue
            i, item = self.item(at, kept, is_public, words, module, line, owner)
            if item is None:
                raise ValueError(f"{self.path}:{line}: {self.at(at)} begins no member that is known")
            if self.at(at) in ("ghost", "type"):
                said.append((item.contract.parts[-1], item.contract.words))
            elif not tests:
                found.append(item)
        return found, Said(said)

    def impl(self, i, module, words, tests):
        start, line = i, self.tokens[i][2]
        end = self.until(i, ("{",))
        close = self.close(end)
        at = i + 1
        if self.at(at) == "<":
            depth = 1
            while depth:
                at += 1
                depth += {"<": 1, ">": -1}.get(self.at(at), 0)
            at += 1
        stop = self.until(at, ("for", "where", "{"))
        of_trait = self.text(at, stop) if self.at(stop) == "for" else ""
        of_type = stop + 1 if of_trait else at
        while self.at(of_type) in ("&", "mut") or self.at(of_type).startswith("'"):
            of_type += 1
        path = [self.at(of_type)]
        while self.at(of_type + 1) == "::":
            of_type += 2
            path.append(self.at(of_type))
        inner = dict(words)
        found, said = self.members(end + 1, close, inner, module, "")
        if not tests:
            header = self.text(start, end)
            said = Contract("", [header, *said], said.words, self.path, line, module.path)
            module.impls.append((path, of_trait, header, said, found))
        return close + 1


class Said(list):
    """The texts of members, and the words that they name."""

    def __init__(self, said):
        super().__init__(sorted(text for text, _ in said))
        self.words = {name: path for _, words in said for name, path in words.items()}


def uses(text):
    """The names that a `use` item makes, each with its path."""
    text = re.sub(r"\s+", " ", text).strip()

    def walk(text, before):
        text = text.strip()
        at = text.find("{")
        if at >= 0 and text.endswith("}"):
            inner, depth, piece = text[at + 1:-1], 0, ""
            head = [it.strip() for it in text[:at].split("::") if it.strip()]
            for char in inner + ",":
                if char == "," and not depth:
                    if piece.strip():
                        yield from walk(piece, before + head)
                    piece = ""
                else:
                    depth += {"{": 1, "}": -1}.get(char, 0)
                    piece += char
            return
        path, _, name = text.partition(" as ")
        path = before + [it.strip() for it in path.split("::") if it.strip()]
        if path[-1] == "self":
            path = path[:-1]
        yield name.strip() or path[-1], path

    return list(walk(text, []))


def imported(text):
    """What an antt `use` brings: for each name where it comes from and how it is called there; of a module, ending in a dot."""
    text = re.sub(r"\s+", " ", text).strip()
    many = re.fullmatch(r"(\S+?)\.\s?\{(.*)\}", text)
    if not many:
        path, _, name = text.partition(" as ")
        return {name.strip() or path.rpartition(".")[2]: (path.strip(), "")}
    found = {}
    for piece in filter(None, map(str.strip, many[2].split(","))):
        there, _, here = piece.partition(" as ")
        found[here.strip() or there.strip()] = (many[1], there.strip())
    return found


def named(texts, words):
    """Those of the imported words that texts name, each by how it is called where it comes from, and the texts with these names."""
    renamed = {here: there for here, (_, there) in words.items() if there and there != here}
    pieces, used = [], {}
    for text in texts:
        # (what follows a dot is a field)
        bare = re.sub(r'"(?:\\.|[^"\\])*"', '""', text)
        there = {it[0] for it in WORD.finditer(bare) if bare[it.start() - 1:it.start()] != "."}
        # (each step of a `do` is a `>>=`)
        there |= {">>="} if "←" in there else set()
        for here, where in words.items():
            if all(part in there for part in here.split("◌") if part):
                used[where[1] or where[0]] = where
        if renamed.keys() & there:
            text = WORD.sub(lambda it: it[0] if text[it.start() - 1:it.start()] == "." else renamed.get(it[0], it[0]), text)
        pieces.append(text)
    return pieces, used


def contract_of(name, parts, words, file, line, module):
    texts, used = named(parts, words)
    return Contract(name, texts, used, file, line, module.path)
