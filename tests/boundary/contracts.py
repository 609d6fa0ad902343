"""CONTRACTS.md: what each exported function promises, clause by clause, and every definition that the clauses name, once.

An exported function is an error if it asks something of its caller, if its clauses name no definition, of specs/ or of the toolchain's, or if it may
change a lent list or struct of which no clause says what it holds afterwards.
"""

import re
import sys
import textwrap

import c
import promises
from antt import Term
from names import PRELUDE, Thing
from words import INTRODUCTION, WORDS


MEANINGS = "Words of the toolchain"
BESIDE = "Statements beside the contracts"
PLACES = "Where each definition stands"


def heading(text):
    """The anchor of a heading."""
    return text.lower().replace(" ", "-")


def anchor(thing):
    """Its crate, file and name, in letters that a link takes as they are."""
    crate, _, file = thing.file.removeprefix("crates/").partition("/")
    text = f"{crate}-{file.rsplit('/', 1)[1].split('.')[0]}-{thing.name}"
    return re.sub(r"[^A-Za-z0-9_-]", lambda m: f".{ord(m[0]):x}", text)


def prose(text):
    """A text of which nothing is taken for markup."""
    return re.sub(r"([\\`*_\[\]<>|#])", r"\\\1", text)


def fence(text, language=""):
    if "```" in text:
        sys.exit(f"contracts: a text has three backticks: {text}")
    return [f"```{language}", *text.splitlines(), "```"]


def clause_text(clause):
    """As the sources write it, its further lines indented once."""
    return re.sub(r"\n\s*", "\n    ", str(clause))


def contract_names(library, f):
    found = {}
    for clause in f.contract:
        for target, token in library.clause_names(clause).items():
            found.setdefault(target, token)
    return found


def reached(library, model):
    """What contracts of exported functions reach."""
    return library.reached([target for f in model.functions for target in contract_names(library, f)])


class Page:
    def __init__(self, library, model):
        self.library, self.model = library, model
        self.given = set()  # the things that stand on the page so far
        self.files = set()
        for f in model.functions:
            self.check(f)
        self.promises = promises.beside(library, reached(library, model))
        named = [thing for f in model.functions for thing in self.shapes(f)] + [thing for p in self.promises for thing in p.statements]
        self.all = library.reached(named, reached(library, model))
        self.check_anchors()
        # Of each word of the toolchain, the module that most have it from.
        self.usual = {}
        for word in sorted(self.words_named(), key=lambda word: (word.module != PRELUDE, word.path)):
            self.usual.setdefault(word.name, word.module)

    # ---- functions

    def check(self, f):
        source = f.contract[0].source.path if f.contract else "its source"
        if any(clause.kind != "ensures" for clause in f.contract):
            sys.exit(f"contracts: {source}: {f.symbol} asks something of its caller")
        if not any(t.is_definition for t in contract_names(self.library, f)):
            sys.exit(f"contracts: {source}: {f.symbol} has no clause that names a definition")
        for p in f.parameters:
            said = {token for clause in f.contract for token in Term(clause.text).found}
            if p.type.mutable and not any(f"{token}.".startswith(f"{p.name}.new.") for token in said):
                sys.exit(f"contracts: {source}: no clause of {f.symbol} says what {p.name} holds afterwards")

    def check_anchors(self):
        found = {}
        for thing in self.all:
            if isinstance(thing, Thing) and found.setdefault(anchor(thing), thing) != thing:
                sys.exit(f"contracts: {thing.file}: {thing.name} has the anchor of another definition, {anchor(thing)}")

    def shapes(self, f):
        """The structs that are handed over and returned."""
        words = [word for word in (*(p.type.name for p in f.parameters), f.result) if word in self.model.structs]
        found = {self.library.in_source(f.contract[0].source, word): word for word in words}
        if None in found:
            sys.exit(f"contracts: {f.contract[0].source.path}: {f.symbol} has the type {found[None]}, which cannot be found")
        return found

    def function(self, f):
        names = contract_names(self.library, f)
        for target, token in self.shapes(f).items():
            names.setdefault(target, token)
        yield f"### {f.symbol}"
        yield ""
        yield from fence("\n".join(c.function(f, self.model)), "c")
        yield ""
        yield from fence("\n".join(clause_text(clause) for clause in f.contract))
        yield ""
        yield from self.links(names)
        yield from self.definitions(names)

    # ---- definitions

    def links(self, names):
        """A link to each thing, under the name that it has there; and of the toolchain's words those that a reader could take for others."""
        links = []
        for target, token in names.items():
            if isinstance(target, Thing):
                links.append(f"[`{token}`](#{anchor(target)})")
            elif token.split(".")[-1] not in (target.name, *target.name.split("◌")):
                links.append(f"`{token}`, which is `{target.name}` of {target.module}")
            elif target.module != self.usual[target.name]:
                links.append(f"`{token}` of {target.module}")
        if links:
            yield f"Names {' · '.join(links)}"
            yield ""

    def definitions(self, names):
        """What is named and does not stand on the page yet: each before those that it names."""
        for target in names:
            if isinstance(target, Thing) and target not in self.given:
                yield from self.family(target)

    def family(self, thing):
        """A thing, and those that stand under the same comment, as far as they are reached."""
        things = [t for t in self.members(thing) if t in self.all and t not in self.given]
        self.given.update(things)
        for t in things:
            yield f'<a id="{anchor(t)}"></a>'
        yield f"{', '.join(f'**`{t.name}`**' for t in things)} in {thing.file}"
        yield ""
        text = "\n\n".join(t.text for t in things)
        if thing.module:
            text = f"module _ {thing.module} where\n{textwrap.indent(text, '  ')}"
        yield from fence(self.opening(thing) + text, "" if thing.is_definition else "rust")
        yield ""
        names = {}
        for t in things:
            for target, token in self.library.names(t).items():
                if target not in things:
                    names.setdefault(target, token)
        yield from self.links(names)
        yield from self.definitions(names)

    def members(self, thing):
        return [self.library.defined(thing.source, name) for name in thing.origin.family] if thing.is_definition else [thing]

    def opening(self, thing):
        """Of the first definition of a file, the comment with which the file begins."""
        if not thing.is_definition or thing.file in self.files:
            return ""
        self.files.add(thing.file)
        lines = re.match(r"(?:--[^\n]*\n)*", thing.source.text)[0].replace("Definitions only.", "").splitlines()
        return "\n".join(line.rstrip() for line in lines if line.strip("- ")) + "\n\n"

    # ---- the page

    def modules(self):
        for module, about in self.model.modules.items():
            yield f"## {module}"
            yield ""
            yield prose(c.text_of(about, self.model))
            yield ""
            for f in self.model.functions:
                if f.module == module:
                    yield from self.function(f)

    def beside(self):
        yield f"## {BESIDE}"
        yield ""
        yield "Theorems about the definitions, of which no contract of an exported function speaks."
        yield ""
        for promise in self.promises:
            # Its links are meant from docs/.
            yield re.sub(r"\]\((?!\w+:|#)", "](docs/", promise.sentence).replace("](docs/../", "](")
            yield ""
            for thing in promise.statements:
                yield f"- [`{thing.name}`](#{anchor(thing)}) in {thing.file}: {promises.proved(self.library, thing)}"
            yield ""
            yield from self.definitions(promise.statements)

    def contents(self):
        yield f"- [{MEANINGS}](#{heading(MEANINGS)})"
        for module in self.model.modules:
            functions = ", ".join(f"[{f.name}](#{f.symbol})" for f in self.model.functions if f.module == module)
            yield f"- [{module}](#{module}): {functions}"
        yield f"- [{BESIDE}](#{heading(BESIDE)})"
        yield f"- [{PLACES}](#{heading(PLACES)})"

    def words_named(self):
        return [target for target in self.all if not isinstance(target, Thing)]

    def words(self):
        """What the words mean that end the descent, as far as they stand on the page, and which module has them."""
        used = {}
        for word in self.words_named():
            used.setdefault(word.module, set()).update([word.name.replace("◌", "")])
        told = {word for words, _ in WORDS for word in words.replace("\\", "").split()}
        if untold := sorted(set().union(*used.values()) - told):
            sys.exit(f"contracts: words.py does not tell what {', '.join(untold)} means")
        yield "| word | what it means |"
        yield "|---|---|"
        for words, meaning in WORDS:
            if meaning.startswith("!") or any(names & set(words.replace("\\", "").split()) for names in used.values()):
                yield f"| {' '.join(f'`{word}`' for word in words.split())} | {meaning.lstrip('!')} |"
        yield ""
        yield "They stand in:"
        yield ""
        for module in sorted(used):
            yield f"- {module}: {' '.join(f'`{word}`' for word in sorted(used[module]))}"

    def places(self):
        """Every file of which something stands on the page."""
        files = {}
        for thing in self.all:
            if isinstance(thing, Thing):
                files.setdefault(thing.file, []).append(thing)
        yield f"## {PLACES}"
        yield ""
        for file in sorted(files):
            yield f"- {file}: {', '.join(f'[`{t.name}`](#{anchor(t)})' for t in files[file])}"

    def text(self):
        body = [*self.modules(), *self.beside(), *self.places()]
        left = [t.name for t in self.all if isinstance(t, Thing) and t not in self.given]
        if left:
            sys.exit(f"contracts: {', '.join(left)} found no place on the page")
        yield from [*INTRODUCTION.strip().splitlines(), "", "## Contents", "", *self.contents(), ""]
        yield from [f"## {MEANINGS}", "", *self.words(), "", *body]


def page(library, model):
    return "\n".join(Page(library, model).text()).rstrip() + "\n"
