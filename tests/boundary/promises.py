"""The table of docs/PROMISES.md: | promise | stated | stands |, a row a promise.

The second cell names statements and their file, as `A`, `B.field` in crates/x/specs/Y.antt; `C` in crates/z/specs/W.antt. The third says
`in contracts` where a contract of an exported function reaches them, and else `beside`.
"""

import dataclasses
import re
import sys

PAGE = "docs/PROMISES.md"
HEAD = ["promise", "stated", "stands"]
GROUP = re.compile(r"((?:`[^`]+`, )*`[^`]+`) in (crates/\S+\.antt)")


@dataclasses.dataclass(frozen=True)
class Promise:
    sentence: str
    statements: tuple  # things
    beside: bool


def tables(text):
    """Each table's rows, each row's cells."""
    for table in re.findall(r"(?:^\|.*\n)+", text, re.M):
        yield [[cell.strip() for cell in re.split(r"(?<!\\)\|", row.strip().strip("|"))] for row in table.splitlines()]


def statement(library, file, name):
    """A definition by its file and name, or by the name of one of its fields, as `Record.field`."""
    _, crate, _, *module = file.removesuffix(".antt").split("/")
    spec = library.spec(crate, module) if crate in library.crates else None
    owner, _, field = name.partition(".")
    if spec is None or owner not in spec.definitions or field and field not in spec.definitions[owner].fields:
        sys.exit(f"promises: {PAGE}: {name} is not in {file}")
    return library.defined(spec, owner)


def promise(library, cells):
    groups = [GROUP.fullmatch(group) for group in cells[1].split("; ")]
    if len(cells) != 3 or None in groups or cells[2] not in ("in contracts", "beside"):
        sys.exit(f"promises: {PAGE}: a row in a form that is not read: {' | '.join(cells)}")
    statements = [statement(library, file, name) for names, file in (g.groups() for g in groups) for name in re.findall(r"`([^`]+)`", names)]
    return Promise(cells[0], tuple(dict.fromkeys(statements)), cells[2] == "beside")


def read(library):
    """Every row. A table with another head is an error."""
    rows = []
    for table in tables((library.root / PAGE).read_text() + "\n"):
        if table[0] != HEAD:
            sys.exit(f"promises: {PAGE}: a table that is not read: {' | '.join(table[0])}")
        rows += table[2:]
    return [promise(library, row) for row in rows]


def laws(library, crate):
    """Of each statement of a crate, the first law whose whole type it is: `name : Statement`, perhaps with arguments of its module."""
    found = {}
    for path in sorted((library.root / "crates" / crate / "proofs").glob("**/*.antt")):
        for law, stated in re.findall(r"^ *(?:pub )?(\S+) : (\w+)(?: \w+)*$", path.read_text(), re.M):
            found.setdefault(stated, f"proved by `{law}` in {path.relative_to(library.root)}")
    return found


def proved(library, thing):
    """Where a statement beside the contracts of exported functions is proved: by a law of its crate, or by a contract that C does not call."""
    law = laws(library, thing.file.split("/")[1]).get(thing.name)
    inner = (c for c in library.clauses() if thing in library.reached(list(library.clause_names(c))))
    return law or next((f"part of the contract of `{c.place}` in {c.source.path}" for c in inner), None)


def standing(library, exported):
    """Every promise; what is said of it and is not so is an error. `exported` are the things that contracts of exported functions reach."""
    found = read(library)
    for p in found:
        for thing in p.statements:
            if p.beside and thing in exported:
                sys.exit(f"promises: {PAGE}: {thing.name} of {thing.file} stands in contracts, not beside them")
            if not p.beside and thing not in exported:
                sys.exit(f"promises: {PAGE}: no contract of an exported function reaches {thing.name} of {thing.file}")
            if p.beside and not proved(library, thing):
                sys.exit(f"promises: {PAGE}: no law in proofs/ and no contract has {thing.name} of {thing.file}")
    return found


def beside(library, exported):
    return [p for p in standing(library, exported) if p.beside]
