"""An example in a comment, as Rust that runs as a test of the documentation.

`Example: (0, 1), (3, 5) gives 2.` has an argument for each parameter. A shape is its numbers in parentheses, a list its entries in brackets, as
`[1, 2]` or `[0; 8]`, or bytes in quotes. After `gives` stands the answer, or `none`; after `leaves` what the lent list or shape holds then. An edge
stands by its name, in backticks: `Edge::Left`.
"""

import re

TOKEN = re.compile(r'\s*("(?:[^"\\]|\\.)*"|[()\[\];,]|[^()\[\];,\s]+)')


def parsed(text):
    """A comma-separated list of values: numbers and words as text, shapes as tuples, lists as lists."""
    tokens = TOKEN.findall(text)

    def values(closing):
        found = []
        while tokens and tokens[0] != closing:
            token = tokens.pop(0)
            if token in "([":
                inner = values({"(": ")", "[": "]"}[token])
                tokens.pop(0)
                found.append(tuple(inner) if token == "(" else inner)
            elif token == ";":
                found += found * (int(tokens.pop(0)) - 1)
            elif token != ",":
                found.append(token)
        return found

    return values(None)


def number(text, t):
    return text if t != "f32" or "." in text else f"{text}.0"


def flat(value):
    return [n for inner in value for n in flat(inner)] if isinstance(value, tuple) else [value]


def literal(value, t, model):
    """A value as Rust writes it."""
    if t not in model.structs:
        return number(value, t)
    fields = model.structs[t].fields
    if len(fields) <= 2:
        return f"{t} {{ {', '.join(f'{f.name}: {literal(v, f.type.name, model)}' for f, v in zip(fields, value))} }}"
    return f"{t}::from([{', '.join(number(n, 'f32') for n in flat(value))}])"


def listed(value, t):
    """A list's entries; equal ones once."""
    if isinstance(value, str):
        return "b" + re.sub(r"\\([1-9])", r"\\x0\1", value)
    if len(value) > 1 and len(set(value)) == 1:
        return f"[{number(value[0], t)}; {len(value)}]"
    return f"[{', '.join(number(n, t) for n in value)}]"


def field_value(field, value, model):
    """The value of an answer's field: a number, or perhaps an edge."""
    if not field.is_edge:
        return number(value, field.type.name)
    edge = next(e for e in model.edges if e.path == value)
    return f"Some(Edge::{edge.name})" if edge.number else "None"


def answer(f, value, model):
    """What the function's answer must equal."""
    kind, struct = model.kind(f), model.structs.get(f.result)
    if struct is None or not struct.is_answer:
        return "Ok(())" if kind.error else literal(value, f.result, model)
    fields = struct.answered
    if value == "none":
        text = "None"
    elif len(fields) == 1:
        text = literal(value, fields[0].type.name, model)
    else:
        inner = ", ".join(f"{x.name}: {field_value(x, v, model)}" for x, v in zip(fields, value, strict=True))
        text = f"{struct.name.removesuffix('Answer')} {{ {inner} }}"
    text = f"Some({text})" if kind.none and value != "none" else text
    return f"Ok({text})" if kind.error else text


def code(f, model):
    """The lines of the example."""
    given, _, told = f.comment.example.removesuffix(".").partition(" gives ")
    if not told:
        given, _, left = given.partition(" leaves ")
        told = "()"
    else:
        told, _, left = told.partition(" and leaves ")
    arguments = parsed(given)
    lines, handed, lent = [], [], None
    for p, value in zip(f.parameters, arguments, strict=True):
        t = p.type
        if t.list and t.mutable:
            lines.append(f"let mut {p.name}: [{t.name}; {len(value)}] = {listed(value, t.name)};")
        elif t.lent and t.mutable:
            lines.append(f"let mut {p.name} = {literal(value, t.name, model)};")
        elif t.name in model.structs:
            lines.append(f"let {p.name} = {literal(value, t.name, model)};")
        if t.mutable:
            handed.append(f"&mut {p.name}")
            lent = p
        elif t.list:
            text = listed(value, t.name)
            handed.append(text if text.startswith("b") else f"&{text}")
        else:
            handed.append(p.name if t.name in model.structs else number(value, t.name))
    lines.append(f"assert_eq!({f.module}::{f.name}({', '.join(handed)}), {answer(f, parsed(told)[0], model)});")
    if left:
        value = parsed(left)[0]
        text = listed(value, lent.type.name) if lent.type.list else literal(value, lent.type.name, model)
        lines.append(f"assert_eq!({lent.name}, {'*' * text.startswith('b')}{text});")
    words = set(re.findall(r"\w+", " ".join(lines)))
    answers = {s.name.removesuffix("Answer") for s in model.structs.values() if s.is_answer and len(s.answered) > 1}
    named = sorted(words & (set(model.structs) | answers | {"Edge"})) + [f.module]
    return [f"use bagnoszyk::{named[0] if len(named) == 1 else '{' + ', '.join(named) + '}'};", "", *lines]
