"""The Rust wrapper's types: shapes, answers, edges, refusals and limits."""

import re
import textwrap

from limits import LIMITS
from model import ERRORS
from rust_text import WIDTH, answer_name, comment, conversion, converted, origin, signature, takes_places, value_type


def struct(name, fields, above, edge="u32"):
    """A struct, in which an edge has this type."""
    yield from above
    yield f"pub struct {name} {{"
    for field in fields:
        if field.comment:
            yield f"    /// {field.comment}"
        yield f"    pub {field.name}: {edge if field.is_edge else field.type.name},"
    yield "}"


def about(s, model):
    return [line for text in s.comment.text for line in comment(text, model)]


def made(t, names, model):
    """The value of a type from the names of its numbers."""
    if t not in model.structs:
        return next(names)
    parts = []
    for field in model.structs[t].fields:
        value = made(field.type.name, names, model)
        parts.append(field.name if value == field.name else f"{field.name}: {value}")
    return f"{t} {{ {', '.join(parts)} }}"


def fitted(line):
    """A struct or an array on a line of its own if it fits; else a struct has a field a line, and an array's numbers fill the lines."""
    if len(line) <= WIDTH:
        return [line]
    indent = " " * (len(line) - len(line.lstrip()))
    opening, inner, closing = re.fullmatch(r"( *\w* ?[{\[]) ?(.*?) ?([}\]])", line).groups()
    if closing == "]":
        filled = textwrap.wrap(f"{inner},", WIDTH - len(indent) - 4)
    else:
        filled = [f"{part}," for part in re.split(r", (?![^{]*\})", inner)]
    return [opening, *(f"{indent}    {text}" for text in filled), f"{indent}{closing}"]


def conversions(s, model):
    """Between a shape and an array of its floats, in order; none where it has other numbers too."""
    if any(t != "f32" for _, t in model.scalars(s.name)):
        return
    yield ""
    paths = [path.lstrip(".") for path, _ in model.scalars(s.name)]
    names = [path.replace(".", "_") for path in paths]
    array = f"[f32; {len(paths)}]"
    yield f"impl From<{array}> for {s.name} {{"
    yield "    #[inline]"
    head = f"    fn from([{', '.join(names)}]: {array}) -> Self {{"
    if len(head) > WIDTH:
        # More names than a line has room for: the array by its places.
        head, names = f"    fn from(floats: {array}) -> Self {{", [f"floats[{i}]" for i in range(len(paths))]
    yield head
    yield from fitted(f"        {made(s.name, iter(names), model)}")
    yield from ["    }", "}", ""]
    yield f"impl From<{s.name}> for {array} {{"
    yield "    #[inline]"
    yield f"    fn from(s: {s.name}) -> Self {{"
    yield from fitted(f"        [{', '.join(f's.{path}' for path in paths)}]")
    yield from ["    }", "}"]


def shapes_file(model):
    yield "//! Shapes as the library takes and returns them, and other results of several numbers; those of floats alone also from and to an"
    yield "//! array of their floats in order."
    yield "//!"
    yield from origin("crates/types/src/shape.rt and the structs that routines return")
    for s in model.structs.values():
        if not s.is_answer:
            yield ""
            derived = "#[derive(Clone, Copy, Debug, PartialEq)]"
            yield from struct(s.name, s.fields, [*about(s, model), derived, "#[repr(C)]"])
            yield from conversions(s, model)


def methods(s, model):
    """What the routines that give this answer make of it."""
    fields = s.answered
    inner = ", ".join(f"{x.name}: {f'Edge::from_number(self.{x.name})' if x.is_edge else f'self.{x.name}'}" for x in fields)
    value = f"self.{fields[0].name}" if len(fields) == 1 else f"{answer_name(s)} {{ {inner} }}"
    kinds = {conversion(model.kind(f)): model.kind(f) for f in model.functions if f.result == s.name}
    yield f"impl {s.name} {{"
    for i, (name, kind) in enumerate(sorted(kinds.items())):
        yield from [""] * (i > 0)
        taken, placed = (["placed: &[Refusal]"], ["placed"]) if takes_places(kind) else ([], [])
        told = [f"self.{field}" for field in kind.told]
        yield "    #[inline]"
        yield f"    pub fn {name}({', '.join(['self', *taken])}) -> {converted(value_type(s), kind)} {{"
        yield from signature(name, ["self.status", value, *told, *placed], "", 8)
        yield "    }"
    yield "}"


CONVERSIONS = """
#[inline]
pub(crate) fn option<T>(status: u32, value: T) -> Option<T> {
    (status == ANSWERED).then_some(value)
}

#[inline]
pub(crate) fn result<T>(status: u32, value: T) -> Result<T, Refusal> {
    if status == ANSWERED { Ok(value) } else { Err(Refusal::numbered(status)) }
}

#[inline]
pub(crate) fn result_of_option<T>(status: u32, value: T) -> Result<Option<T>, Refusal> {
    if status == NONE { Ok(None) } else { result(status, value).map(Some) }
}

/// `placed` are the refusals that tell a place.
#[inline]
pub(crate) fn result_at<T>(
    status: u32,
    value: T,
    place: usize,
    placed: &[Refusal],
) -> Result<T, RefusalAt> {
    result(status, value)
        .map_err(|refusal| RefusalAt { refusal, place: placed.contains(&refusal).then_some(place) })
}

#[inline]
pub(crate) fn result_in<T>(
    status: u32,
    value: T,
    list: usize,
    place: usize,
) -> Result<T, RefusalIn> {
    result(status, value).map_err(|refusal| refusal.in_list(list, place))
}"""


def answers_file(model):
    yield "//! Answers: what a routine gives where that is more than one number, and the structs of the C ABI."
    yield "//!"
    yield from origin("crates/c_answers/src/lib.rt and crates/c_hatch/src/answer.rt")
    yield ""
    yield "use crate::edge::Edge;"
    yield f"use crate::refusal::{{{', '.join(ERRORS)}}};"
    answers = [s for s in model.structs.values() if s.is_answer]
    shapes = sorted({f.type.name for s in answers for f in s.fields} & set(model.structs))
    yield f"use crate::shapes::{{{', '.join(shapes)}}};"
    yield ""
    yield "/// The status of an answer."
    yield "pub const ANSWERED: u32 = 0;"
    yield ""
    yield "/// The status where there is none of what was asked for. Any other number is a refusal."
    yield "pub const NONE: u32 = 255;"
    for s in answers:
        if len(s.answered) > 1:
            floats = any(t == "f32" for _, t in model.scalars(s.name))
            derived = f"#[derive(Clone, Copy, Debug, PartialEq{'' if floats else ', Eq'})]"
            yield ""
            yield from struct(answer_name(s), s.answered, [*about(s, model), derived], "Option<Edge>")
    for s in answers:
        yield ""
        yield from struct(s.name, s.fields, ["#[repr(C)]"])
        yield ""
        yield from methods(s, model)
    yield CONVERSIONS


# ---- edges, refusals and limits


EDGE = """\
/// An edge of a box, or in space a face of one, by which a line comes in.
#[derive(Clone, Copy, Debug, PartialEq, Eq, Hash)]
pub enum Edge {
@VARIANTS@
}

impl Edge {
    /// The number of the edge, as C has it.
    #[inline]
    pub const fn number(self) -> u32 {
        self as u32
    }

    /// The edge with this number, and `None` for any other number. In the results of a whole face it
    /// is the fourth float of a line: `Edge::from_number(result[3] as u32)`.
    #[inline]
    pub const fn from_number(number: u32) -> Option<Edge> {
        match number {
@ARMS@
            _ => None,
        }
    }
}"""


def edge_file(model):
    edges = [e for e in model.edges if e.number]
    variants = [line for e in edges for line in (f"    /// {e.text}", f"    {e.name} = {e.number},")]
    arms = [f"            {e.number} => Some(Edge::{e.name})," for e in edges]
    yield "//! Edges."
    yield "//!"
    yield from origin("crates/slabs/src/crossing.rt")
    yield ""
    yield EDGE.replace("@VARIANTS@", "\n".join(variants)).replace("@ARMS@", "\n".join(arms))



REFUSAL = """\
use std::error::Error;
use std::fmt;

/// Why a call was refused. Its number is the status that the C function gives.
#[derive(Clone, Copy, PartialEq, Eq, Hash)]
pub struct Refusal(u32);

impl Refusal {
@CONSTANTS@

    /// The number of the refusal.
    #[inline]
    pub const fn number(self) -> u32 {
        self.0
    }

    /// The refusal at a place, to compare an error with: `refused == Refusal::NOT_FINITE.at(2)`.
    #[inline]
    pub const fn at(self, place: usize) -> RefusalAt {
        RefusalAt { refusal: self, place: Some(place) }
    }

    /// The refusal at a byte of a list, to compare an error with:
    /// `refused == Refusal::VERSION.in_list(2, 3)`. Of the merged list both are 0.
    #[inline]
    pub const fn in_list(self, list: usize, place: usize) -> RefusalIn {
        RefusalIn { refusal: self, list, place }
    }

    #[inline]
    pub(crate) const fn numbered(number: u32) -> Self {
        Refusal(number)
    }

    const fn name_and_text(self) -> (&'static str, &'static str) {
        match self {
@ARMS@
            _ => ("UNKNOWN", "not a refusal of this library"),
        }
    }
}

impl fmt::Display for Refusal {
    fn fmt(&self, f: &mut fmt::Formatter<'_>) -> fmt::Result {
        f.write_str(self.name_and_text().1)
    }
}

/// Name, number and text, for the message of a panic.
impl fmt::Debug for Refusal {
    fn fmt(&self, f: &mut fmt::Formatter<'_>) -> fmt::Result {
        let (name, text) = self.name_and_text();
        write!(f, "{name} ({}): {text}", self.0)
    }
}

impl Error for Refusal {}

/// A refusal, with its place if it tells one. Which refusals do, and what the place counts, stands
/// under Errors in the documentation of each routine.
#[derive(Clone, Copy, PartialEq, Eq, Hash)]
pub struct RefusalAt {
    /// Why the call was refused.
    pub refusal: Refusal,
    /// The place, and `None` if this refusal tells none. 0 is a place too.
    pub place: Option<usize>,
}

impl RefusalAt {
    /// The number of the refusal.
    #[inline]
    pub const fn number(self) -> u32 {
        self.refusal.number()
    }
}

/// For `?` in a function whose errors are refusals alone: the place is dropped.
impl From<RefusalAt> for Refusal {
    fn from(told: RefusalAt) -> Self {
        told.refusal
    }
}

/// For `?` in a function whose errors may have a place. This one has none, and equals none that
/// has.
impl From<Refusal> for RefusalAt {
    fn from(refusal: Refusal) -> Self {
        RefusalAt { refusal, place: None }
    }
}

impl fmt::Display for RefusalAt {
    fn fmt(&self, f: &mut fmt::Formatter<'_>) -> fmt::Result {
        match self.place {
            Some(place) => write!(f, "{} (place {place})", self.refusal),
            None => write!(f, "{}", self.refusal),
        }
    }
}

/// Name, number, place and text, for the message of a panic.
impl fmt::Debug for RefusalAt {
    fn fmt(&self, f: &mut fmt::Formatter<'_>) -> fmt::Result {
        let (name, text) = self.refusal.name_and_text();
        match self.place {
            Some(place) => write!(f, "{name} ({}) at {place}: {text}", self.number()),
            None => write!(f, "{:?}", self.refusal),
        }
    }
}

impl Error for RefusalAt {}

/// A refusal of a merge, with the list that is refused and the byte of it.
#[derive(Clone, Copy, PartialEq, Eq, Hash)]
pub struct RefusalIn {
    /// Why the call was refused.
    pub refusal: Refusal,
    /// The list: 1 or 2 of the two that are read, and 0 for the merged list.
    pub list: usize,
    /// The byte of list 1 or 2, from 0 on. With list 0 it is 0 and tells nothing.
    pub place: usize,
}

impl RefusalIn {
    /// The number of the refusal.
    #[inline]
    pub const fn number(self) -> u32 {
        self.refusal.number()
    }
}

/// For `?` in a function whose errors are refusals alone: list and place are dropped.
impl From<RefusalIn> for Refusal {
    fn from(told: RefusalIn) -> Self {
        told.refusal
    }
}

impl fmt::Display for RefusalIn {
    fn fmt(&self, f: &mut fmt::Formatter<'_>) -> fmt::Result {
        match self.list {
            0 => write!(f, "{} (the merged list)", self.refusal),
            list => write!(f, "{} (list {list}, byte {})", self.refusal, self.place),
        }
    }
}

/// Name, number, list, place and text, for the message of a panic.
impl fmt::Debug for RefusalIn {
    fn fmt(&self, f: &mut fmt::Formatter<'_>) -> fmt::Result {
        let (name, text) = self.refusal.name_and_text();
        match self.list {
            0 => write!(f, "{name} ({}) of the merged list: {text}", self.number()),
            list => {
                write!(f, "{name} ({}) in list {list} at {}: {text}", self.number(), self.place)
            }
        }
    }
}

impl Error for RefusalIn {}"""


def refusal_arm(r):
    """An arm of the match, as rustfmt breaks it."""
    text = f'"{r.text[0].lower()}{r.text[1:].removesuffix(".")}"'
    opening, pair = f"            Refusal::{r.name} =>", f'("{r.name}", {text})'
    if len(f"{opening} {pair},") <= WIDTH:
        return f"{opening} {pair},"
    if len(pair) + 16 <= WIDTH:
        return f"{opening} {{\n                {pair}\n            }}"
    return f'{opening} (\n                "{r.name}",\n                {text},\n            ),'


def refusal_file(model):
    constants = [
        "\n".join([*comment(r.text, model, 4), f"    pub const {r.name}: Refusal = Refusal({r.number});"]) for r in model.refusals
    ]
    yield "//! Refusals."
    yield "//!"
    yield from origin("crates/types/src/refusal.rt")
    yield ""
    yield REFUSAL.replace("@CONSTANTS@", "\n\n".join(constants)).replace("@ARMS@", "\n".join(map(refusal_arm, model.refusals)))


def limits_file(model):
    yield "//! What the routines take at most, what they write at most, and the floats of a line."
    yield "//!"
    yield from origin("tests/boundary/limits.py")
    for name, value, text in LIMITS:
        yield ""
        yield f"/// {text}"
        t, digits = ("f32", f"{value:_}.0") if "COORDINATE" in name else ("usize", f"{value:_}")
        yield f"pub const {name}: {t} = {digits};"
