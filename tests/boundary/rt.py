"""What a file of src/ declares beside code: clauses, ghost members and ghost fields; types, constants and traits; and what it imports.

`Source` gives them with the name and the text of each. A clause or a ghost member in a form that is not read is an error, so none is left out.
"""

import dataclasses
import functools
import re
import sys

CLAUSE = re.compile(r"\s*(requires|ensures|ghost)\b(\*?)[ \n]*(\w*)\s*(?={)")
MEMBER = re.compile(r"\bghost (\w+) ?(?:=|:) ?(?={)")
ITEM = re.compile(r"^((?://[^\n]*\n)*)((?:#\[[^\n]*\]\n)*)(?:pub(?:\(crate\))? )?(struct|enum|const|static|type|trait) (?!fn\b)(\w+)", re.M)


@dataclasses.dataclass(frozen=True)
class Clause:
    """`ensures NAME { TEXT }`, or a ghost member or field. `place` says of what, as `Sheet::new`; `known` are the parameters and the fields."""

    kind: str
    name: str
    text: str
    place: str
    known: frozenset
    ghosts: frozenset  # the ghost members of the trait or the impl: where nothing is imported under such a name, it is theirs
    bounds: tuple  # of each type parameter: its name and its traits
    source: object
    start: int
    end: int
    public: bool  # of a function that other crates may call

    def __str__(self):
        """As the sources write it."""
        return f"{self.kind} {self.name} {{ {self.text} }}".replace("  ", " ")


@dataclasses.dataclass(frozen=True)
class Item:
    kind: str
    name: str
    text: str  # with its comment
    body: str  # what stands after its name, without comments


def blanked(text):
    """The text without comments and strings: as many blanks in their places."""
    return re.sub(r"//[^\n]*|\"(?:[^\"\\]|\\.)*\"|'(?:[^'\\\n]|\\.)'", lambda m: re.sub(r"[^\n]", " ", m[0]), text)


def closing(text, start):
    """Where the bracket at `start` closes."""
    depth = 0
    for at in range(start, len(text)):
        depth += (text[at] in "([{") - (text[at] in ")]}")
        if depth == 0:
            return at
    raise ValueError(f"a bracket does not close: {text[start:start + 40]}")


def generics(text):
    """Names and bounds of `<'a, T: A + B, const N: usize>`."""
    found = []
    for part in re.split(r",(?![^<]*>)", text):
        name, _, bound = part.strip().removeprefix("const ").partition(":")
        if name and not name.startswith("'"):
            found.append((name.strip(), tuple(re.findall(r"[\w:]+", bound))))
    return found


def imports(text):
    """Of `use` lines, the path that each name stands for: `a::b::{c, d as e}`."""
    for path in re.findall(r"^(?:pub(?:\(crate\))? )?use ([^;]+);", text, re.M):
        head, brace, listed = path.partition("{")
        for one in listed.rstrip("} \n").split(",") if brace else [path]:
            whole = (head + one.strip() if brace else one).strip()
            target, _, other = whole.partition(" as ")
            if one.strip():
                target = target.removesuffix("::self")
                yield other or target.split("::")[-1], target


def ghost_imports(text):
    """Of lines of antt, `use M.{a, b as c}`, `use M as n` and `use M.N`: names and their paths, a module's path as `M.`."""
    for path, listed, other in re.findall(r"\buse ([^;{\n]+?)(?:\.\{([^}]*)\}| as (\w+))?(?=[;\n]|$)", text):
        if listed:
            for one in filter(None, re.split(r",\s*", listed.strip())):
                name, _, renamed = one.strip().partition(" as ")
                yield renamed or name, f"{path.strip()}.{name}"
        else:
            yield other or path.split(".")[-1], f"{path.strip()}."


class Source:
    def __init__(self, path, text):
        self.path, self.text, self.bare = path, text, blanked(text)

    def fail(self, what):
        sys.exit(f"boundary: {self.path}: {what}")

    @functools.cached_property
    def blocks(self):
        """The impls, traits, structs and enums: kind, start and end of the braces, name, generics, and which trait an impl is of."""
        found = []
        for m in re.finditer(r"^(?:pub(?:\(crate\))? )?(?:unsafe )?(impl|trait|struct|enum|mod)\b((?<=impl)[^{]*|[^{;]*)(?={)", self.bare, re.M):
            if m[1] == "mod":
                self.fail("a module within a file is not read")
            head = m[2].strip()
            own = re.match(r"<(.*?)>(?= )", head) if m[1] == "impl" else re.match(r"\w+<(.*?)>", head)
            of, _, name = head[own.end() if own and m[1] == "impl" else 0:].rpartition(" for ")
            found.append((m[1], m.end(), closing(self.bare, m.end()), re.match(r"\s*(\w+)", name)[1], generics(own[1]) if own else [], of.strip()))
        return found

    def block(self, at):
        return next((b for b in self.blocks if b[1] <= at <= b[2]), None)

    @functools.cached_property
    def items(self):
        """Types, constants and traits, each with the comment above it; the `derive`s are left out."""
        found = {}
        for m in ITEM.finditer(self.text):
            end = self.end(m.end(), braces=m[3] in ("struct", "enum", "trait"))
            text = re.sub(r"^#\[derive\([^\n]*\)\]\n", "", self.text[m.start():end + 1], flags=re.M)
            found[m[4]] = Item(m[3], m[4], text, self.bare[m.end():end])
        return found

    def end(self, at, braces):
        """Where an item ends: at a semicolon, or where its braces close."""
        while self.bare[at] != ";":
            if self.bare[at] == "{" and braces:
                return closing(self.bare, at)
            at = closing(self.bare, at) + 1 if self.bare[at] in "([{" else at + 1
        return at

    @functools.cached_property
    def uses(self):
        return dict(imports(self.bare))

    def reexports(self):
        return dict(imports("\n".join(re.findall(r"^pub use [^;]+;", self.bare, re.M))))

    @functools.cache
    def ghost_uses(self, at):
        """The names that `ghost use` lines bring in at a place: those of its block, then those of the file."""
        block = self.block(at)
        found = {}
        for m in re.finditer(r"\bghost use ([^;]+);", self.bare):
            inner = self.block(m.start())
            if inner is None or inner == block:
                for name, path in ghost_imports(f"use {m[1]}"):
                    if inner or name not in found:
                        found[name] = path
        return found

    @functools.cached_property
    def clauses(self):
        """Every clause, ghost member and ghost field of the file."""
        found = [*self.function_clauses(), *self.ghost_members()]
        words = len(re.findall(r"\b(?:requires|ensures|ghost)\b(?! use\b)", self.bare))
        if len(found) != words:
            self.fail(f"{words} clauses and ghost members, of which {len(found)} have a form that is read")
        return found

    def function_clauses(self):
        for m in re.finditer(r"(\bpub )?(?:\b(?:const|unsafe|extern +)\s+)*\bfn (\w+)", self.bare):
            at, params = m.end(), []
            if self.bare[at] == "<":
                end = re.compile(r">\s*\(").search(self.bare, at).start()
                params, at = generics(self.bare[at + 1:end]), end + 1
            at = self.bare.index("(", at)
            end = closing(self.bare, at)
            names = re.findall(r"(?:^|,)\s*(?:mut )?(\w+)\s*:", self.bare[at + 1:end])
            block = self.block(m.start())
            params += block[4] if block else []
            place = f"{block[3]}::{m[2]}" if block else m[2]
            known = frozenset([*names, *(n for n, _ in params), "self", "Self", "result"])
            of = place, known, self.ghosts_of(block) if block else frozenset(), tuple(params), self
            at = end + 1
            while self.bare[at] not in "{;":
                clause = CLAUSE.match(self.bare, at)
                if clause:
                    end = closing(self.bare, clause.end())
                    text = self.text[clause.end() + 1:end].strip()
                    yield Clause(clause[1] + clause[2], clause[3], text, *of, clause.start(), end + 1, bool(m[1]))
                    at = end + 1
                else:
                    at = closing(self.bare, at) + 1 if self.bare[at] in "([" else at + 1

    def ghosts_of(self, block):
        return frozenset(MEMBER.findall(self.bare, block[1], block[2]))

    def ghost_members(self):
        for m in MEMBER.finditer(self.bare):
            block = self.block(m.start())
            if block is None:
                self.fail(f"the ghost member {m[1]} stands in no block that is read")
            kind, start, end, name, params, of = block
            fields = re.findall(r"^ *(?:pub(?:\(crate\))? )?(\w+):", self.bare[start:end], re.M) if kind == "struct" else []
            known = frozenset([*fields, *(n for n, _ in params), "self", "Self"])
            until = closing(self.bare, m.end())
            text = self.text[m.end() + 1:until].strip()
            place = f"{name} as {of}" if of else name
            yield Clause("ghost", m[1], text, place, known, self.ghosts_of(block), tuple(params), self, m.start(), until + 1, False)
