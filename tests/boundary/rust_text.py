"""Comments, names and types of the Rust wrapper."""

import re
import textwrap

from limits import LIMITS

WIDTH = 100


def origin(path):
    return [f"//! Written by tests/generate from {path}; not to be edited."]


def text_of(text, model):
    """A comment's text, with links to functions, refusals, limits and edges."""
    for refusal in model.refusals:
        text = text.replace(f"`{refusal.name}`", f"[`Refusal::{refusal.name}`]")
    for limit, _, _ in LIMITS:
        text = text.replace(f"`{limit}`", f"[`{limit}`](crate::limits::{limit})")
    for edge in model.edges:
        text = text.replace(edge.path, f"[`Edge::{edge.name}`](crate::Edge::{edge.name})" if edge.number else "`None`")
    return re.sub(r"`([a-z]\w*::\w+)`", r"[`\1`](crate::\1)", text)


def comment(text, model, indent=0, mark="///"):
    for line in textwrap.wrap(text_of(text, model), WIDTH - indent - 4, break_long_words=False, break_on_hyphens=False):
        yield f"{' ' * indent}{mark} {line}"


def answer_name(struct):
    return struct.name.removesuffix("Answer")


def value_type(struct):
    """What an answer of the C ABI holds beside its status."""
    fields = struct.answered
    return fields[0].type.name if len(fields) == 1 else answer_name(struct)


def converted(t, kind):
    """What an answer is in Rust: the value, perhaps none, perhaps refused."""
    t = f"Option<{t}>" if kind.none else t
    return f"Result<{t}, {kind.error}>" if kind.error else t


def conversion(kind):
    names = {
        (True, ""): "option",
        (False, "Refusal"): "result",
        (True, "Refusal"): "result_of_option",
        (False, "RefusalAt"): "result_at",
        (False, "RefusalIn"): "result_in",
    }
    return names[kind.none, kind.error]


def takes_places(kind):
    """Whether the conversion is handed the refusals that tell a place. With a list it is not: list 0 says that none is told."""
    return kind.error == "RefusalAt"


def signature(opening, parameters, closing, indent=0):
    """A function's head, or a call: on a line if it fits, and else a parameter a line."""
    pad = " " * indent
    line = f"{pad}{opening}({', '.join(parameters)}){closing}"
    if len(line) <= WIDTH:
        return [line]
    return [f"{pad}{opening}(", *(f"{pad}    {p}," for p in parameters), f"{pad}){closing}"]
