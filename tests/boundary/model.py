"""What the Rattle sources export: functions, structs, refusals and the edges of a box, each with the comment above it.

`read()` gives them in the order in which the header declares them: modules as crates.txt lists their crates, functions as written. A form
that this module does not read is an error, so nothing that is exported can be left out.

A comment is text, in which code stands in backticks, a refusal or a limit by its name, as `ROOM`, an edge as `Edge::Left`, and a function
as `module::name`. Four kinds of paragraphs begin with a word of their own and stand last: `Writes` what is left in lent lists, `Refused: `
the conditions in the order in which they are tested, `Place: ` what the refusals that it names tell beside their numbers, a place or a
list and a place in it, `Example: ` arguments and what they give.
"""

import dataclasses
import pathlib
import re
import sys

import names

ROOT = pathlib.Path(__file__).resolve().parent.parent.parent
SCALARS = ("bool", "u8", "u32", "i32", "usize", "f32")
COMMENT = r"((?:^ *//[^\n]*\n)*)"
ATTRIBUTES = r"(?:#\[[^\n]*\]\n)*"
# The errors of answers, and the fields in which C is told more of one than its number.
ERRORS = {"Refusal": (), "RefusalAt": ("place",), "RefusalIn": ("list", "place")}
TOLD = ERRORS["RefusalIn"]


@dataclasses.dataclass(frozen=True)
class Type:
    """A scalar or a struct by its name; lent, and then perhaps to be changed, and perhaps a list."""

    name: str
    lent: bool = False
    mutable: bool = False
    list: bool = False

    @staticmethod
    def of(text):
        lent = re.fullmatch(r"&(mut )?(?:\[(\w+)\]|(\w+))", text)
        if lent:
            return Type(lent[2] or lent[3], True, bool(lent[1]), bool(lent[2]))
        return Type(re.fullmatch(r"\w+", text)[0])

    def __str__(self):
        """As the sources write it."""
        return f"{('&mut ' if self.mutable else '&') if self.lent else ''}{f'[{self.name}]' if self.list else self.name}"


@dataclasses.dataclass(frozen=True)
class Comment:
    text: tuple  # paragraphs
    refused: str = ""
    place: str = ""
    example: str = ""


@dataclasses.dataclass(frozen=True)
class Named:
    """A parameter or a field."""

    name: str
    type: Type
    comment: str = ""

    @property
    def is_edge(self):
        """Whether it is the number of an edge."""
        return (self.name, self.type.name) == ("edge", "u32")


@dataclasses.dataclass(frozen=True)
class Struct:
    name: str
    comment: Comment
    fields: tuple

    @property
    def is_answer(self):
        return self.fields[0].name == "status"

    @property
    def answered(self):
        """The fields of an answer but its status, and the list and the place of a refusal."""
        return tuple(f for f in self.fields if f.name not in ("status", *TOLD))

    @property
    def told(self):
        return tuple(f.name for f in self.fields if f.name in TOLD)


@dataclasses.dataclass(frozen=True)
class Function:
    symbol: str
    comment: Comment
    parameters: tuple
    result: str
    enum: str  # what the result stands for, by the contract: a name of `Model.enums`, or nothing
    routine: str  # what it calls, as crate::routine
    contract: tuple  # its clauses

    @property
    def parts(self):
        """Module and name: bgz_obb2_corner_points. A number belongs to the module: bgz_aabb_3_center."""
        return re.fullmatch(r"bgz_([a-z0-9]+(?:_\d+)?)_([a-z]\w*)", self.symbol).groups()

    @property
    def module(self):
        return self.parts[0]

    @property
    def name(self):
        return self.parts[1]


@dataclasses.dataclass(frozen=True)
class Refusal:
    name: str
    number: int
    text: str


@dataclasses.dataclass(frozen=True)
class Edge:
    """An edge by which a line comes in; the one with number 0 is none."""

    name: str  # as the sources have it, `Left`
    number: int
    text: str

    @property
    def path(self):
        """As comments have it."""
        return f"`Edge::{self.name}`"


@dataclasses.dataclass(frozen=True)
class Enum:
    """What an answer can be beside what was asked for: none of it, or an error."""

    none: bool
    error: str  # one of ERRORS, or nothing

    @property
    def told(self):
        return ERRORS.get(self.error, ())


@dataclasses.dataclass(frozen=True)
class Model:
    functions: tuple
    structs: dict
    refusals: tuple
    edges: tuple
    enums: dict
    modules: dict  # the comment on each

    def kind(self, function):
        """What the contract says of a function's answer."""
        return self.enums[function.enum] if function.enum else Enum(False, "")

    def places(self, function):
        """The refusals of a function that tell a place."""
        other = re.fullmatch(r"that of `(\w+)::(\w+)`\.", function.comment.place)
        if other:
            return self.places(next(f for f in self.functions if (f.module, f.name) == other.groups()))
        return [r for r in self.refusals if f"`{r.name}`" in function.comment.place]

    def scalars(self, t, path=""):
        """The numbers that a value is made of, in order: where each stands in it, and its type."""
        if t in SCALARS:
            return [(path, t)]
        return [s for f in self.structs[t].fields for s in self.scalars(f.type.name, f"{path}.{f.name}")]


def comment_of(text):
    """A comment's paragraphs, from its lines."""
    paragraphs = []
    for line in (re.sub(r"^ *// ?", "", line) for line in text.splitlines()):
        if not paragraphs or re.match(r"Writes |Refused: |Place: |Example: ", line):
            paragraphs.append(line)
        elif line:
            paragraphs[-1] += " " + line
    kinds = {"Refused: ": "", "Place: ": "", "Example: ": ""}
    for paragraph in list(paragraphs):
        for kind in kinds:
            if paragraph.startswith(kind):
                kinds[kind] = paragraph.removeprefix(kind)
                paragraphs.remove(paragraph)
    return Comment(tuple(paragraphs), *kinds.values())


def named(text):
    """Names and types, from a comma-separated list that may have comments."""
    lines = re.sub(r", (?=\w+: )", ",\n", text.strip("\n"))
    found = re.findall(COMMENT + r"^ *(?:pub )?(\w+): ([^,\n]+),?$", lines, re.M)
    return tuple(Named(name, Type.of(t), " ".join(comment_of(comment).text)) for comment, name, t in found)


def functions_of(source):
    pattern = COMMENT + r'#\[unsafe\(no_mangle\)\]\n' + ATTRIBUTES + r'pub extern "C" fn (\w+)\(([^)]*)\) -> (\w+)\n(.*?)^\{(.*?)^\}'
    for comment, symbol, parameters, result, contract, body in re.findall(pattern, source.text, re.S | re.M):
        answer = re.search(r"result ≡ \(?(\w*answer(?:_at)?_of|status_of)\b", contract)
        # The innermost call: what is around it only turns an answer into a struct.
        routine = re.findall(r"\w+::\w+(?=\()", body)[-1]
        clauses = tuple(c for c in source.clauses if c.place == symbol)
        yield Function(symbol, comment_of(comment), named(parameters), result, answer[1] if answer else "", routine, clauses)


def structs_of(source):
    for comment, name, fields in re.findall(COMMENT + r"#\[repr\(C\)\]\n" + ATTRIBUTES + r"pub struct (\w+) \{\n(.*?)^\}", source.text, re.S | re.M):
        yield Struct(name, comment_of(comment), named(fields))


def enums_of(definitions):
    """Of each definition that turns an answer into what C sees, what its argument can be: `f : Result (Option Float) Refusal → FloatAnswer`."""
    for name, answer in re.findall(r"^abbrev pub (\w*answer(?:_at)?_of|status_of) : (?:\{.*?\} → )?(.*?) → \w+$", definitions, re.M):
        error = answer.split()[-1] if "Result" in answer else ""
        if error and error not in ERRORS:
            sys.exit(f"boundary: {name} is of an error that is not read: {error}")
        yield name, Enum("Option" in answer or answer == "Crossing", error)


def refusals_of(source):
    for text, name, number in re.findall(r'^    #\[error\("(.*)"\)\]\n    (\w+) = (\d+),$', source, re.M):
        yield Refusal(re.sub(r"(?<=[a-z])(?=[A-Z])", "_", name).upper(), int(number), f"{text[0].upper()}{text[1:]}.")


def edges_of(text):
    found = re.search(r"^pub enum Edge \{\n(.*?)^\}", text, re.M | re.S)[1]
    edges = [Edge(name, int(number), text) for text, name, number in re.findall(r"^    // (.*)\n    (\w+) = (\d+),$", found, re.M)]
    if len(edges) != found.count(",\n") or [e.number for e in edges] != list(range(len(edges))):
        sys.exit("boundary: an edge has a form that is not read, or the edges are not numbered from 0 on")
    return edges


def read(library=None):
    library = library or names.Library(ROOT)
    functions, structs, enums, modules = [], [], {}, {}
    for crate in library.crates:
        own, declared = [], []
        for source in library.sources(crate):
            own += functions_of(source)
            declared += structs_of(source)
        text = "".join(source.text for source in library.sources(crate))
        if len(own) != text.count('extern "C" fn') or len(declared) != text.count("#[repr(C)]"):
            sys.exit(f"boundary: a function or a struct of {crate} has a form that is not read")
        for function in own:
            if not function.comment.text or not f"{crate}_".startswith(f"c_{function.module}_"):
                sys.exit(f"boundary: {function.symbol} has no comment, or stands in {crate}")
        if own and own[0].module not in modules:
            modules[own[0].module] = " ".join(comment_of(re.match(r"(?://.*\n)*", text)[0]).text)
        functions += own
        structs += declared
    for crate in ("c_answers", "c_hatch"):
        for spec in library.specs(crate):
            enums.update(enums_of(spec.text))
    refusals = tuple(refusals_of((library.root / "crates/types/src/refusal.rt").read_text()))
    edges = tuple(edges_of((library.root / "crates/slabs/src/crossing.rt").read_text()))
    structs.sort(key=lambda s: s.is_answer)
    model = Model(tuple(functions), {s.name: s for s in structs}, refusals, edges, enums, modules)
    for function in functions:
        told, struct = model.kind(function).told, model.structs.get(function.result)
        if bool(model.places(function)) != bool(told):
            sys.exit(f"boundary: {function.symbol} and its comment differ on the places of refusals")
        if told and told != (struct.told if struct else ()):
            sys.exit(f"boundary: {function.symbol} answers {function.result}, which has not the fields for what its refusals tell")
    return model
