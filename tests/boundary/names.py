"""What the names in contracts and definitions stand for: things of this repository, down to the toolchain's words.

A name that stands for nothing is an error, told with its file.
"""

import dataclasses
import functools
import re
import sys

import antt
import rt

TOOLCHAIN = ("mathlib", "Prim", "lib")
PRELUDE = "Rattle.std.specs.Prelude"
# What a clause names with no import.
VARIANTS = "Some None Ok Err true false".split()
MACHINE = "u8 u16 u32 u64 usize i8 i16 i32 i64 isize f32 f64 bool char".split()


@dataclasses.dataclass(frozen=True)
class Word:
    """A word of the toolchain, or a law of proofs/ that a ghost member hands on."""

    path: str

    @property
    def name(self):
        return self.path.rsplit(".", 1)[1]

    @property
    def module(self):
        return self.path.rsplit(".", 1)[0]

    @property
    def is_definition(self):
        """Not only a sign or a word of logic, which the Prelude has."""
        return ".specs." in self.path and self.module != PRELUDE


@dataclasses.dataclass(frozen=True)
class Thing:
    """A definition of specs/, or a type, a constant or a ghost member of src/. `text` is what the sources write of it, with its comment."""

    file: str
    name: str
    kind: str
    text: str = dataclasses.field(compare=False)
    module: str = dataclasses.field(default="", compare=False)  # the parameters of the module that it stands in
    fields: tuple = dataclasses.field(default=(), compare=False)
    source: object = dataclasses.field(default=None, compare=False, repr=False)
    origin: object = dataclasses.field(default=None, compare=False, repr=False)

    @property
    def is_definition(self):
        return self.kind in ("definition", "record")


class Library:
    """The crates under a folder."""

    def __init__(self, root):
        self.root = root
        listed = (root / "crates.txt").read_text()
        self.crates = re.findall(r"^(\w+)(?: staticlib)?:", listed, re.M)
        self.others = {"std", *re.findall(r"\w+", " ".join(re.findall(r"^\w[^#:]*:(.*)$", listed, re.M)))} - set(self.crates)

    # ---- files

    @functools.cache
    def sources(self, crate):
        """The root first: it has the comment on the crate."""
        folder = self.root / "crates" / crate / "src"
        paths = sorted(folder.glob("**/*.rt"), key=lambda p: (p.parent != folder or p.stem not in ("lib", "main"), p))
        return tuple(rt.Source(str(p.relative_to(self.root)), p.read_text()) for p in paths)

    @functools.cache
    def specs(self, crate):
        folder = self.root / "crates" / crate / "specs"
        return tuple(antt.Spec(str(p.relative_to(self.root)), p.read_text()) for p in sorted(folder.glob("**/*.antt")))

    def source(self, crate, module):
        """The file of a module of src/, the root for none."""
        names = [f"crates/{crate}/src/{'/'.join(module)}{end}" for end in (".rt", "/mod.rt")] if module else [
            f"crates/{crate}/src/{root}.rt" for root in ("lib", "main")]
        return next((s for s in self.sources(crate) if s.path in names), None)

    def spec(self, crate, module):
        return next((s for s in self.specs(crate) if s.path == f"crates/{crate}/specs/{'/'.join(module)}.antt"), None)

    # ---- paths of specs/

    @functools.cache
    def at(self, path):
        """What an imported path stands for, or nothing."""
        parts = path.split(".")
        if parts[0] in TOOLCHAIN:
            return Word(path)
        if parts[0] != "Rattle" or len(parts) < 4:
            return None
        crate = parts[1]
        if crate not in self.crates:
            return Word(path) if crate in self.others else None
        if parts[2] == "proofs":
            return Word(path)
        if parts[3] == "declared":
            return self.declared(crate, parts[4:-1], parts[-1])
        spec = self.spec(crate, parts[3:-1])
        if spec:
            return self.defined(spec, parts[-1])
        root = self.spec(crate, ["Lib"])
        module = root and root.reexports.get(parts[3])
        return self.at(f"{module}{'.'.join(parts[4:])}") if module and module.endswith(".") else None

    def defined(self, spec, name):
        found = spec.definitions.get(name)
        if found:
            return Thing(spec.path, name, found.kind, found.text, found.module, found.fields, spec, found)
        return self.at(spec.reexports[name]) if name in spec.reexports else None

    def declared(self, crate, parts, name):
        """A type, a variant or a constant of src/ by the path that the toolchain gives it."""
        if parts[-1:] == ["TheConstants"]:
            return self.item(self.source(crate, parts[:-1]), name)
        variants = parts[-1:] == ["TheVariants"]
        *module, owner = parts[:-1] if variants else parts
        thing = self.item(self.source(crate, module), owner)
        if variants:
            return thing if thing and re.search(rf"^ +{re.escape(name)}\b", thing.text, re.M) else None
        return thing if owner == name else None

    def item(self, source, name):
        """A type, a constant or a trait of a file of src/, or of where it has it from."""
        if source is None:
            return None
        if name in source.items:
            item = source.items[name]
            return Thing(source.path, name, item.kind, item.text, source=source, origin=item)
        path = source.reexports().get(name)
        return self.rust(source, path.split("::")) if path else None

    def rust(self, source, parts):
        """What a path of Rust stands for, from a file."""
        crate = source.path.split("/")[1]
        if parts[0] in ("crate", "super", "self"):
            parts = [crate, *parts[1:]]
        elif self.source(crate, parts[:1]) and parts[0] not in self.crates:
            parts = [crate, *parts]
        if parts[0] not in self.crates:
            return Word(f"{PRELUDE}.{parts[-1]}")
        return self.item(self.source(parts[0], parts[1:-1]), parts[-1])

    def in_source(self, source, name):
        """What a name of Rust stands for in a file."""
        if name in source.items:
            return self.item(source, name)
        return self.rust(source, source.uses[name].split("::")) if name in source.uses else None

    # ---- what a name stands for

    def among(self, imports, token):
        """What a token stands for by imports: it may be a sign, as `⊕` of `◌⊕◌`, have fields, or stand in a module with another name."""
        token = token.replace("«", "").replace("»", "")
        if token in imports:
            return imports[token]
        head, dot, rest = token.partition(".")
        if dot and imports.get(head, "").endswith("."):
            return imports[head] + rest
        if head in imports:
            return imports[head]
        return next((path for name, path in imports.items() if "◌" in name and token in name.split("◌")), None)

    def is_variant(self, imports, token):
        """Whether a name is one of a pattern's variants. Else the pattern binds it, whatever else has that name."""
        path = self.among(imports, token)
        return token in VARIANTS or bool(path) and ("TheVariants" in path or isinstance(self.at(path), Word))

    def in_spec(self, spec, token):
        own = {name: name for name in spec.definitions}
        found = self.among(own, token)
        if found:
            return self.defined(spec, found)
        path = self.among(spec.imports, token)
        return self.at(path) if path else None

    def in_clause(self, clause, token):
        source = clause.source
        head, _, rest = token.partition(".")
        for bound in dict(clause.bounds).get(head, ()):
            trait = self.in_source(source, bound)
            member = self.ghost_member(trait, rest.split(".")[0]) if isinstance(trait, Thing) else None
            if member:
                return member
        if head in dict(clause.bounds):
            return Word(f"{PRELUDE}.{head}")
        path = self.among(source.ghost_uses(clause.start), token)
        if path:
            return self.at(path)
        if token in VARIANTS or head in MACHINE:
            return Word(f"{PRELUDE}.{head}")
        return self.in_source(source, head)

    def ghost_member(self, trait, name):
        """A ghost member of a trait, as `E.bits_of` names it."""
        for clause in trait.source.clauses:
            if clause.kind == "ghost" and clause.name == name and clause.place == trait.name:
                text = re.match(r"(?://[^\n]*\n)*", trait.text)[0] + f"trait {trait.name}: ghost {name}: {{ {clause.text} }}"
                return Thing(trait.file, f"{trait.name}.{name}", "ghost member", text, source=trait.source, origin=clause)
        return None

    # ---- what things name: of each name, as it is written there, what it stands for

    @functools.cache
    def clause_names(self, clause):
        """In the order in which a clause names them."""
        found = {}
        own = clause.known - {name for name, _ in clause.bounds}
        imports = clause.source.ghost_uses(clause.start)
        for token in antt.Term(clause.text, own, lambda token: self.is_variant(imports, token)).found:
            target = self.in_clause(clause, token)
            if target is None and token in clause.ghosts:
                continue
            if target is None:
                sys.exit(f"boundary: {clause.source.path}: {clause.kind} {clause.name} of {clause.place} names {token}, which cannot be found")
            found.setdefault(target, token)
        return found

    @functools.cache
    def names(self, thing):
        """In the order in which a thing names them, but itself."""
        if thing.is_definition:
            found = self.definition_names(thing)
        elif thing.kind == "ghost member":
            found = self.clause_names(thing.origin)
        else:
            found = self.item_names(thing)
        return {target: token for target, token in found.items() if target != thing}

    def definition_names(self, thing):
        definition, spec, tokens = thing.origin, thing.source, []

        def is_variant(token):
            return self.is_variant(spec.imports, token)

        def read(text, bound):
            """Answers what is bound behind the text."""
            term = antt.Term(text, bound, is_variant)
            tokens.extend(term.found)
            return term.scope

        outer = read(definition.module, ())
        bound = read(definition.terms[0], outer)
        for field, term in zip(definition.fields, definition.terms[1:]):
            read(term, bound)
            bound = bound | {field}
        for left, term in zip(definition.patterns, definition.terms[1:]):
            used, variables = antt.pattern([t for t in left if t not in (thing.name, *thing.name.split("◌"))], is_variant)
            tokens += used
            read(term, outer | variables)
        found = {}
        for token in tokens:
            target = self.in_spec(spec, token)
            if target is None:
                spec.fail(f"{thing.name} names {token}, which cannot be found")
            found.setdefault(target, token)
        return found

    def item_names(self, thing):
        """The types of a type's fields, and what its ghost fields name."""
        body = thing.origin.body
        if thing.kind == "enum":
            body = re.sub(r"^ +\w+", "", body, flags=re.M)
        found = {}
        for word in re.findall(r"\w+(?:::\w+)*", body):
            target = self.rust(thing.source, word.split("::")) if "::" in word else self.in_source(thing.source, word)
            if isinstance(target, Thing):
                found.setdefault(target, word)
        for clause in thing.source.clauses:
            if clause.kind == "ghost" and clause.place == thing.name and thing.kind in ("struct", "enum"):
                for target, token in self.clause_names(clause).items():
                    found.setdefault(target, token)
        return found

    def reached(self, targets, found=None):
        """Things and words that are named, directly or not: each before those that it names."""
        found = {} if found is None else found
        stack = list(reversed(targets))
        while stack:
            target = stack.pop()
            if target not in found:
                found[target] = None
                if isinstance(target, Thing):
                    stack += reversed(list(self.names(target)))
        return found

    def clauses(self):
        for crate in self.crates:
            for source in self.sources(crate):
                yield from source.clauses
