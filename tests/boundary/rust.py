"""The Rust wrapper's files, from the model and formatted as rustfmt has it."""

import re

import example
from model import ERRORS
from rust_text import answer_name, comment, conversion, converted, origin, signature, takes_places, value_type
from rust_types import answers_file, edge_file, limits_file, refusal_file, shapes_file


def documentation(f, model, indent=0):
    """What a function answers, when it refuses, and an example that runs as a test."""
    parts = [list(comment(text, model, indent)) for text in f.comment.text]
    if f.comment.refused:
        refused = re.sub(r"^as (`\w+::\w+`) is\.$", r"The refusals of \1, in the same order.", f.comment.refused)
        parts += [[" " * indent + "/// # Errors"], list(comment(refused, model, indent))]
    if f.comment.place:
        parts.append(list(comment(f"Place: {f.comment.place}", model, indent)))
    code = ["```", *example.code(f, model), "```"]
    parts += [[" " * indent + "/// # Example"], [f"{' ' * indent}/// {line}".rstrip() for line in code]]
    for i, part in enumerate(parts):
        yield from [" " * indent + "///"] * (i > 0)
        yield from part


def answer_type(f, model):
    struct = model.structs.get(f.result)
    if struct and struct.is_answer:
        return converted(value_type(struct), model.kind(f))
    return converted("()" if f.enum else f.result, model.kind(f))


def is_direct(f):
    """Whether the C function can be called as it is."""
    return not f.enum and not any(p.type.list for p in f.parameters)


def safe_parameter(p):
    return f"{p.name}: {p.type}"


def raw_parameters(p):
    t = p.type
    if t.list:
        return [f"{p.name}: *{'mut' if t.mutable else 'const'} {t.name}", f"{p.name}_length: usize"]
    return [safe_parameter(p)]


def arguments(p):
    t = p.type
    return [f"{p.name}.{'as_mut_ptr' if t.mutable else 'as_ptr'}()", f"{p.name}.len()"] if t.list else [p.name]


def declaration(f, indent):
    safe = not any(p.type.list for p in f.parameters)
    yield f'{" " * indent}#[link_name = "{f.symbol}"]'
    parameters = [text for p in f.parameters for text in raw_parameters(p)]
    yield from signature(f"pub {'safe ' if safe else ''}fn {f.name}", parameters, f" -> {f.result};", indent)


def body(f, model):
    """The call, and what its answer says in Rust."""
    lists = any(p.type.list for p in f.parameters)
    call = signature(f"raw::{f.name}", [text for p in f.parameters for text in arguments(p)], "", 8 if lists else 4)
    call = [line[4:] for line in call]
    placed = f"&[{', '.join(f'Refusal::{r.name}' for r in model.places(f))}]" if takes_places(model.kind(f)) else ""
    turned = f".{conversion(model.kind(f))}({placed})" if f.enum else ""
    if f.enum and f.result not in model.structs:
        yield f"answers::result({call[0]}, ())"
    elif lists:
        yield "let a = unsafe {" if turned else "unsafe {"
        yield "    // SAFETY: each list is lent for the call alone, by its start and its length."
        yield from call
        yield "};" if turned else "}"
        yield from [f"a{turned}"] if turned else []
    else:
        yield from call[:-1]
        yield call[-1] + turned


def uses(functions, model):
    """The lines that bring in what the functions name."""
    texts = [safe_parameter(p) for f in functions for p in f.parameters] + [answer_type(f, model) for f in functions]
    words = set(re.findall(r"\w+", " ".join(texts)))
    if any(takes_places(model.kind(f)) for f in functions):
        words.add("Refusal")
    several = {answer_name(s) for s in model.structs.values() if s.is_answer and len(s.answered) > 1}
    if any(f.enum and f.result not in model.structs for f in functions):
        yield "use crate::answers;"
    for module, names in (("answers", several), ("refusal", set(ERRORS)), ("shapes", set(model.structs))):
        named = sorted(words & names)
        if named:
            yield f"use crate::{module}::{named[0] if len(named) == 1 else '{' + ', '.join(named) + '}'};"


def module_file(module, model):
    functions = [f for f in model.functions if f.module == module]
    direct = [f for f in functions if is_direct(f)]
    wrapped = [f for f in functions if f not in direct]
    yield from comment(model.modules[module], model, mark="//!")
    yield "//!"
    yield from origin(f"the exported functions bgz_{module}_..")
    yield ""
    used = list(uses(functions, model))
    if used:
        yield from [*used, ""]
    if direct:
        yield 'unsafe extern "C" {'
        for i, f in enumerate(direct):
            yield from [""] * (i > 0)
            yield from documentation(f, model, 4)
            yield from declaration(f, 4)
        yield "}"
    if wrapped:
        yield from [""] * bool(direct)
        yield "mod raw {"
        text = " ".join(f.result + " " + " ".join(p.type.name for p in f.parameters) for f in wrapped)
        if any(model.structs[w].is_answer for w in set(text.split()) & set(model.structs)):
            yield "    use crate::answers::*;"
        if any(not model.structs[w].is_answer for w in set(text.split()) & set(model.structs)):
            yield "    use crate::shapes::*;"
        yield from ["", '    unsafe extern "C" {']
        for i, f in enumerate(wrapped):
            yield from [""] * (i > 0)
            yield from declaration(f, 8)
        yield from ["    }", "}"]
    for f in wrapped:
        yield ""
        yield from documentation(f, model)
        yield "#[inline]"
        parameters = [safe_parameter(p) for p in f.parameters]
        yield from signature(f"pub fn {f.name}", parameters, f" -> {answer_type(f, model)} {{")
        yield from (f"    {line}" for line in body(f, model))
        yield "}"


def files(model):
    """Each file's name and text."""
    made = {"shapes": shapes_file, "answers": answers_file, "edge": edge_file, "refusal": refusal_file, "limits": limits_file}
    for name, lines in made.items():
        yield f"{name}.rs", "\n".join(lines(model)) + "\n"
    for module in model.modules:
        yield f"{module}.rs", "\n".join(module_file(module, model)) + "\n"
