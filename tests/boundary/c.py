"""The C header, from the model and bagnoszyk.h.in."""

import pathlib
import re
import textwrap

from limits import LIMITS

TEMPLATE = pathlib.Path(__file__).resolve().parent / "bagnoszyk.h.in"
WIDTH = 120
SCALARS = {"bool": "bool", "u8": "uint8_t", "u32": "uint32_t", "i32": "int32_t", "usize": "size_t", "f32": "float"}


def type_name(t):
    return SCALARS.get(t) or "bgz_" + re.sub(r"(?<=[a-z0-9])(?=[A-Z])", "_", t).lower()


def edge_name(edge):
    return f"BGZ_EDGE_{edge.name.upper()}"


def text_of(text, model):
    """A comment's text: no backticks, and C's names for functions, refusals, limits and edges."""
    for refusal in model.refusals:
        text = text.replace(f"`{refusal.name}`", f"BGZ_REFUSED_{refusal.name}")
    for limit, _, _ in LIMITS:
        text = text.replace(f"`{limit}`", f"BGZ_{limit}")
    for edge in model.edges:
        text = text.replace(edge.path, edge_name(edge))
    return re.sub(r"`(\w+)::(\w+)`", r"bgz_\1_\2", text).replace("`", "")


def comment(paragraphs, model):
    """A comment of one line if it fits."""
    lines = [line for p in paragraphs for line in textwrap.wrap(text_of(p, model), WIDTH - 3, break_on_hyphens=False)]
    if len(lines) == 1 and len(lines[0]) <= WIDTH - 6:
        return [f"/* {lines[0]} */"]
    return ["/*", *(f" * {line}" for line in lines), " */"]


def paragraphs(comment):
    yield from comment.text
    if comment.refused:
        yield f"Refused: {comment.refused}"
    if comment.place:
        yield f"Place: {comment.place}"
    if comment.example:
        yield f"Example: {comment.example}"


def parameters(parameter):
    """A list is handed over by its start and its length."""
    t = parameter.type
    name = "void" if t.list and t.name == "u8" else type_name(t.name)
    if not t.lent:
        return [f"{name} {parameter.name}"]
    start = f"{'' if t.mutable else 'const '}{name} *{parameter.name}"
    return [start, f"size_t {parameter.name}_length"] if t.list else [start]


def function(f, model):
    opening = f"{type_name(f.result)} {f.symbol}("
    # A line breaks between parameters, and within none.
    handed = ", ".join(text.replace(" ", "\xa0") for p in f.parameters for text in parameters(p))
    status = ["Answers the status."] if f.enum and f.result not in model.structs else []
    told = list(paragraphs(f.comment))
    yield from comment(told[:1] + status + told[1:], model)
    for line in textwrap.wrap(f"{opening}{handed});", WIDTH, subsequent_indent=" " * len(opening), break_long_words=False):
        yield line.replace("\xa0", " ")


def field_comment(f):
    return f"{f.comment.removesuffix('.')}, of enum bgz_edge." if f.is_edge else f.comment


def struct(s, model):
    if s.comment.text:
        yield from comment(paragraphs(s.comment), model)
    name = type_name(s.name)
    yield f"typedef struct {name} {{"
    rows = [(f"    {type_name(f.type.name)} {f.name};", f"/* {field_comment(f)} */" if f.comment else "") for f in s.fields]
    yield from (line.rstrip() for line in in_columns(rows))
    yield f"}} {name};"


def in_columns(rows):
    """Rows of two cells, the second ones in line."""
    width = max(len(first) for first, _ in rows)
    return [f"{first:{width}}  {second}" for first, second in rows]


def statuses(model):
    """Each status: name, number, what it says."""
    yield "BGZ_ANSWERED", 0, "an answer: it stands in the other fields"
    for r in model.refusals:
        yield f"BGZ_REFUSED_{r.name}", r.number, phrase(r.text)
    yield "BGZ_NONE", 255, "no refusal, and none of what was asked for"


def status(model):
    rows = list(statuses(model))
    yield "enum bgz_status {"
    yield from in_columns([(f"    {name} = {n}{',' if n < 255 else ''}", f"/* {text} */") for name, n, text in rows])
    yield "};"
    yield ""
    yield "/* What a status says, in one line. */"
    yield "static inline const char *bgz_refusal_text(uint32_t status) {"
    yield "    switch (status) {"
    for name, _, text in rows:
        yield f"    case {name}:"
        yield f'        return "{text}";'
    yield "    default:"
    yield '        return "not a status of this library";'
    yield "    }"
    yield "}"


def phrase(text):
    """A sentence as the comment beside a name."""
    return text[0].lower() + text[1:].removesuffix(".")


def edges(model):
    yield "enum bgz_edge {"
    last = model.edges[-1]
    rows = [(f"    {edge_name(e)} = {e.number}{'' if e == last else ','}", f"/* {phrase(e.text)} */") for e in model.edges]
    yield from in_columns(rows)
    yield "};"


def limits():
    return in_columns([(f"#define BGZ_{name} {value}", f"/* {text} */") for name, value, text in LIMITS])


def functions(model):
    for module, about in model.modules.items():
        yield from comment([f"---- {module}: {about[0].lower()}{about[1:]}"], model)
        for f in model.functions:
            if f.module == module:
                yield ""
                yield from function(f, model)
        yield ""


def header(model, version):
    """The text of include/bagnoszyk.h."""
    shapes, answers = ([s for s in model.structs.values() if s.is_answer == wanted] for wanted in (False, True))
    parts = {
        "VERSION": version,
        "LIMITS": "\n".join(limits()),
        "STATUS": "\n".join(status(model)),
        "EDGES": "\n".join(edges(model)),
        "SHAPES": "\n\n".join("\n".join(struct(s, model)) for s in shapes),
        "ANSWERS": "\n\n".join("\n".join(struct(s, model)) for s in answers),
        "FUNCTIONS": "\n".join(functions(model)).rstrip(),
    }
    return re.sub(r"@(\w+)@", lambda part: parts[part[1]], TEMPLATE.read_text())
