"""The exported functions behind one form of call, tests/ask/routines.c, from the model. tests/ask/routines.h explains the table."""

import pathlib
import re
import sys

import c
from model import TOLD

FORM = pathlib.Path(__file__).resolve().parent.parent / "ask/routines.h"
WIDTH = 120

# Requests whose names are not the functions'.
NAMES = {
    "bgz_aabb_intersections_against_line": "aabb.line",
    "bgz_aabb_intersections_against_lines": "aabb.lines",
    "bgz_aabb_intersections_against_ray": "aabb.ray",
    "bgz_aabb_is_include_point": "aabb.include",
    "bgz_aabb_3_intersections_against_line": "aabb_3.line",
    "bgz_aabb_3_intersections_against_ray": "aabb_3.ray",
    "bgz_aabb_3_is_include_point": "aabb_3.include",
    "bgz_aabb3_is_possible_distance_to_aabb2_smaller_than_threshold": "aabb3.is_possible_distance",
    "bgz_hatch_read_patterns": "hatch.read",
    "bgz_hatch_write_patterns": "hatch.write",
}
# What a request has first that the function does not take, name and type: the box that the Rust's routine overwrites unread.
UNREAD = {"bgz_aabb3_set_as_cube": ("b", "Aabb3")}
# The letters of struct routine: a number that is none of these is a whole number or an edge's; a list by its entries and whether it is written.
NUMBERS = {"f32": "f", "i32": "i"}
EDGE = "n"
LISTS = {
    ("u32", True): "u",
    ("f32", True): "f",
    ("u8", True): "b",
    ("u32", False): "P",
    ("f32", False): "F",
    ("u8", False): "B",
}
# Functions that write the bits of floats, as u32.
PATTERNS = {"bgz_hatch_read_patterns"}
# What an answer tells of the first list, in the place of its last number.
WRITTEN = {"CountAnswer": "l", "MergeAnswer": "l", "ReadAnswer": "e"}

HEAD = """\
/* Written by tests/generate from the functions that the Rattle sources export. */
#include "routines.h"
#include "bagnoszyk.h"
#include <string.h>
"""


def letter_of(number):
    return NUMBERS.get(number, "u")


def is_read_list(parameter):
    return parameter.type.list and not parameter.type.mutable


def wrapped(arguments):
    """Arguments on lines of their own, and the end of the call."""
    line = ""
    for i, argument in enumerate(arguments):
        text = argument + (", " if i + 1 < len(arguments) else ");")
        if line and len(line + text.rstrip()) > WIDTH - 8:
            yield " " * 8 + line.rstrip()
            line = ""
        line += text
    if line:
        yield " " * 8 + line


class Call:
    """An exported function: the fields of its request, name and letter each, and the C text of its call."""

    def __init__(self, function, model):
        self.function, self.model = function, model
        self.fields, self.lists = [], []
        # A shape that is lent: its type, its name and its numbers. What it holds afterwards is the answer, and what the function returns
        # is the status.
        self.lent = ()
        if function.symbol in UNREAD:
            name, shape = UNREAD[function.symbol]
            self.fields += [(name + path, letter_of(number)) for path, number in model.scalars(shape)]
        # Lists of no fixed length stand last in a request.
        handed = {p.name: self.hand(p) for p in sorted(function.parameters, key=is_read_list)}
        self.arguments = [handed[p.name] for p in function.parameters]
        if not self.lent:
            struct = model.structs.get(function.result)
            edges = [f".{field.name}" for field in struct.fields if field.is_edge] if struct else []
            answered = [(f"r{path}", EDGE if path in edges else letter_of(t)) for path, t in model.scalars(function.result)]
            paths = [path for path, _ in answered]
            self.has_status, self.told = "r.status" in paths, [field for field in TOLD if f"r.{field}" in paths]
            self.values = [(path, letter) for path, letter in answered if path.removeprefix("r.") not in ("status", *TOLD)]

    def hand(self, parameter):
        """Adds a parameter's fields, and gives the C text that hands it over."""
        t = parameter.type
        if t.list:
            letter = LISTS[t.name, t.mutable]
            self.fields.append(("room", "r") if t.mutable else (parameter.name, letter))
            self.lists.append("p" if letter == "u" and self.function.symbol in PATTERNS else letter)
            place = f"in->lists[{len(self.lists) - 1}]"
            return f"{place}.start, {place}.length"
        numbers, before = [], len(self.fields)
        for path, number in self.model.scalars(t.name):
            letters = "f" if number == "f32" else "ur"
            numbers.append(f"{letters[0]}[{self.count(letters)}]")
            self.fields.append((parameter.name + path, letter_of(number)))
        if t.lent:
            self.lent = c.type_name(t.name), parameter.name, ", ".join(numbers)
            self.values = self.fields[before:]
            return f"&{parameter.name}"
        return f"({c.type_name(t.name)}){{{', '.join(numbers)}}}" if t.name in self.model.structs else numbers[0]

    def count(self, letters):
        """How many fields have one of these letters."""
        return sum(letter in letters for _, letter in self.fields)

    @property
    def name(self):
        return self.function.symbol.removeprefix("bgz_")

    @property
    def request(self):
        """The name in requests, as C text. The report is text, and is asked for by the program hatch_clip."""
        name = NAMES.get(self.function.symbol, f"{self.function.module}.{self.function.name}")
        return f'"{name}"' if "b" not in self.lists or self.written else "NULL"

    @property
    def written(self):
        """The letter for what the answer tells of the first list, where there is one."""
        return WRITTEN.get(self.function.result) if self.lists else None

    @property
    def gives(self):
        letters = "".join(letter for _, letter in self.values)
        return letters[:-1] + self.written if self.written else letters

    @property
    def places(self):
        """The refusals that tell a place, as C text."""
        return " | ".join(f"AT({r.name})" for r in self.model.places(self.function)) or "0"

    @property
    def tells_list(self):
        return "true" if "list" in self.model.kind(self.function).told else "false"

    def statements(self):
        if self.count("f"):
            yield "const float *f = in->floats;"
        if self.count("u"):
            yield "const uint64_t *u = in->wholes;"
        call = f"{self.function.symbol}({', '.join(self.arguments)});"
        if self.lent:
            t, name, numbers = self.lent
            yield f"{t} {name} = {{{numbers}}};"
            yield f"const {t} before = {name};"
            yield f"out->status = {call}"
            # A refusal gives zeros, as elsewhere; one that changes the shape gives what it left there, and is caught by that.
            yield f"if (out->status != BGZ_ANSWERED && memcmp(&{name}, &before, sizeof before) == 0)"
            yield f"    memset(&{name}, 0, sizeof {name});"
        else:
            yield f"{c.type_name(self.function.result)} r = {call}"
            yield f"out->status = {'r.status' if self.has_status else 'BGZ_ANSWERED'};"
            for field in self.told:
                yield f"out->{field} = r.{field};"
        for i, (path, letter) in enumerate(self.values):
            yield f"out->values[{i}].{'u' if letter == EDGE else letter} = {path};"

    def code(self):
        """The function that calls it. A call too long for a line has its arguments on the next."""
        yield f"static void {self.name}(const struct arguments *in, struct answer *out) {{"
        for statement in self.statements():
            if len(statement) <= WIDTH - 4:
                yield f"    {statement}"
            else:
                yield f"    {statement.partition('(')[0]}("
                yield from wrapped(self.arguments)
        yield "}\n"

    def row(self):
        takes = "".join(letter for _, letter in self.fields)
        fields = " ".join(name for name, _ in self.fields)
        yield f'    {{{self.request}, CALL({self.name}), "{takes}", "{"".join(self.lists)}", "{self.gives}",'
        yield f'     "{fields}", {self.places}, {self.tells_list}}},'

    def hold(self, most):
        """Ends if a routine has more than the table's form has room for."""
        counts = {"FLOATS": self.count("f"), "WHOLES": self.count("ur"), "LISTS": len(self.lists), "VALUES": len(self.values)}
        counts["BYTE_LISTS"] = self.lists.count("B")
        for what, count in counts.items():
            if count > most[what]:
                sys.exit(f"routines: {self.function.symbol} needs {count}: raise MOST_{what} of tests/ask/routines.h")


def table(model):
    calls = [Call(function, model) for function in model.functions]
    most = {what: int(count) for what, count in re.findall(r"MOST_(\w+) = (\d+)", FORM.read_text())}
    for call in calls:
        call.hold(most)
    lines = [HEAD, *(line for call in calls for line in call.code())]
    lines += ['#define CALL(name) "bgz_" #name, name', "#define AT(name) (UINT32_C(1) << BGZ_REFUSED_##name)\n"]
    lines += ["const struct routine routines[] = {"]
    lines += [line for call in calls for line in call.row()]
    lines += ["};\n", "const size_t routine_count = sizeof routines / sizeof routines[0];\n"]
    return "\n".join([*lines, f"const uint32_t last_refusal = {max(r.number for r in model.refusals)};\n"])
