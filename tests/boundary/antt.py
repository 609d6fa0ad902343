"""What a file of specs/ declares: definitions and records, each with its comment and the names that it uses but does not bind itself.

A line that is neither a comment, an import nor part of a declaration is an error, so no definition is left out.
"""

import dataclasses
import functools
import re
import sys

from rt import ghost_imports

TOKEN = re.compile(r'(?<!\S)--[^\n]*|"(?:[^"\\]|\\.)*"|(?:[^\s(){}\[\],;"]|\[\])+|[(){}\[\],;]')
CLOSING = {"(": ")", "[": "]", "{": "}"}
DECLARED = re.compile(r"(?:(?:abbrev|unfoldable)(?: pub)?|(?:pub )?(?:abbrev |unfoldable )?(record)) (\S+) ?(.*)", re.S)
IMPORT = re.compile(r"(?:(?:unfoldable )?(?:pub )?use|(?:pub )?mod) ")
MODULE = re.compile(r"module _ (.*) where$")
# Built into the language: no file imports them.
BUILT_IN = frozenset("× → λ : = _ ¬ ⊥ Unit tt absurd Type record let in elim as where ↦ | . ∗ ⌜ ⌝".split())


def tokens(text):
    return [t for t in TOKEN.findall(text) if not t.startswith("--")]


def pattern(tokens, is_variant):
    """The variants that a pattern names, and the variables that it binds."""
    names = [token for token in tokens if token not in ("(", ")", "{", "}", "_", "→") and not token[0].isdigit()]
    return [token for token in names if is_variant(token)], {token for token in names if not is_variant(token)}


class Term:
    """Reads a term and collects in `found` the names that it does not bind, in order. `is_variant` tells a variant from a variable in a pattern."""

    def __init__(self, text, bound=(), is_variant=lambda token: False):
        self.tokens, self.at, self.found, self.is_variant = tokens(text), 0, [], is_variant
        self.scope = self.inside(set(bound), ())

    def peek(self, ahead=0):
        return self.tokens[self.at + ahead] if self.at + ahead < len(self.tokens) else None

    def next(self):
        self.at += 1
        return self.tokens[self.at - 1]

    def inside(self, bound, closing):
        """Up to a closing bracket. A name is bound from where it stands to there. Answers what is bound in the end."""
        lets = []
        while self.peek():
            token = self.next()
            if token in closing:
                break
            if token == "[":
                self.branches(bound)
            elif token in CLOSING:
                names = self.group()
                self.inside(set(bound), CLOSING[token])
                bound |= names
            elif token == "λ":
                bound |= self.binders(bound)
            elif token == "let":
                lets.append(self.next())
            elif token == "in" and lets:
                bound.add(lets.pop())
            elif token == "unfold":
                # What may be looked into is not part of what is said.
                while self.next() != "in":
                    pass
            elif not ("}" in closing and self.peek() == "="):
                self.name(token, bound)
        return bound

    def branches(self, bound):
        """Of `elim e [ pattern ↦ term | pattern ↦ term ]`."""
        while self.tokens[self.at - 1] != "]":
            left = []
            while self.peek() not in ("↦", "]"):
                left.append(self.next())
            used, variables = pattern(left, self.is_variant)
            for token in used:
                self.name(token, bound)
            if self.next() == "↦":
                self.inside(bound | variables, ("|", "]"))

    def group(self):
        """The names of `(x y : T)`, if a bracket that was just opened begins so."""
        ahead = 0
        while self.peek(ahead) and self.peek(ahead) not in ":=→()[]{},;":
            ahead += 1
        if not ahead or self.peek(ahead) != ":":
            return set()
        names = set(self.tokens[self.at:self.at + ahead])
        self.at += ahead + 1
        return names

    def binders(self, bound):
        """Of `λ x (y : T).`"""
        names = set()
        while True:
            token = self.next()
            if token in CLOSING:
                names |= self.group()
                self.inside(set(bound), CLOSING[token])
            elif token.endswith("."):
                return names | ({token[:-1]} - {""})
            else:
                names.add(token)

    def name(self, token, bound):
        head = token.split(".")[0]
        if re.match(r"[\d\"'.]", token) or token in ",;)]}" or token in BUILT_IN or token in bound or head in bound:
            return
        if token not in self.found:
            self.found.append(token)


@dataclasses.dataclass(frozen=True)
class Definition:
    name: str
    kind: str  # "definition" or "record"
    text: str  # with its comment
    module: str  # the parameters of the module that it stands in
    patterns: tuple  # of each equation, the tokens before its `=`
    terms: tuple  # the type, and what stands after each `=`; of a record the parameters and the fields
    fields: tuple
    family: tuple  # the names of those that stand under the same comment


def margin(line):
    return len(line) - len(line.lstrip())


class Spec:
    def __init__(self, path, text):
        self.path, self.text = path, text

    def fail(self, what):
        sys.exit(f"boundary: {self.path}: {what}")

    @functools.cached_property
    def opening(self):
        """The comment with which the file begins."""
        return " ".join(re.match(r"(?:--[^\n]*\n)*", self.text)[0].replace("\n--", "").split()).removeprefix("-- ")

    @functools.cached_property
    def imports(self):
        return dict(ghost_imports("\n".join(line for line in self.text.splitlines() if re.match(r"(?:unfoldable )?(?:pub )?use ", line))))

    @functools.cached_property
    def reexports(self):
        return dict(ghost_imports("\n".join(line for line in self.text.splitlines() if re.match(r"(?:unfoldable )?pub use ", line))))

    @functools.cached_property
    def definitions(self):
        lines = self.text.splitlines()
        found, families, comment, module, at = {}, [[]], [], "", 0
        while at < len(lines):
            line = lines[at]
            inner = line.strip() if module and line.startswith("  ") else line
            if line and not line.startswith(" "):
                module = ""
            if not inner.strip():
                families += [[]] if comment else []
                comment = []
            elif inner.startswith("--"):
                comment.append(inner)
            elif MODULE.match(line):
                module, comment = line, []
                families.append([])
            elif IMPORT.match(line) or re.match(r"infix[lr]? \d+ ", inner):
                comment = []
            elif DECLARED.match(inner):
                end = self.end(lines, at, margin(line))
                body = "\n".join(l[margin(line):] for l in lines[at:end])
                families += [[]] if comment else []
                definition = self.definition(body, comment, module)
                families[-1].append(definition.name)
                found[definition.name] = definition
                comment, at = [], end - 1
            else:
                self.fail(f"a line that is not read: {line}")
            at += 1
        return {name: dataclasses.replace(found[name], family=tuple(family)) for family in families for name in family}

    def precedence(self, name):
        """Of a sign, the lines that say how it groups."""
        for line in re.findall(r"^infix[lr]? \d+ .*$", self.text, re.M):
            if name in line.split()[2:]:
                yield f"{' '.join(line.split()[:2])} {name}"

    def end(self, lines, at, indent):
        """Past the lines of a declaration: up to an empty line or another declaration, and the comment on that."""
        end = comment = at + 1
        while end < len(lines) and lines[end].strip() and margin(lines[end]) >= indent:
            here = lines[end][indent:]
            if margin(here) == 0 and (DECLARED.match(here) or IMPORT.match(here) or here.startswith("infix")):
                return comment
            end += 1
            if margin(here) or not here.startswith("--"):
                comment = end
        return comment

    def definition(self, body, comment, module):
        record, name, rest = DECLARED.match(body).groups()
        text = "\n".join([*comment, *self.precedence(name), body])
        parameters = MODULE.match(module)[1] if module else ""
        if record:
            head, where, fields = rest.partition(" where\n")
            if not where:
                self.fail(f"the record {name} has a form that is not read")
            split = re.split(r"(?m)^  (?:pub )?(\S+) :\s", re.sub(r"(?m)^ *--[^\n]*\n", "", fields))
            if split[0].strip():
                self.fail(f"the record {name} has a field in a form that is not read: {split[0].strip()}")
            return Definition(name, "record", text, parameters, (), (head, *split[2::2]), tuple(split[1::2]), ())
        parts = re.split(r"\n(?=[^\s)}\]])", rest.strip())
        if not re.match(r":\s", parts[0]):
            self.fail(f"{name} has a form that is not read")
        patterns, terms = [], [parts[0][1:]]
        for part in parts[1:]:
            if part.startswith(("--", "unfolding ")):
                continue
            equation = re.match(r"(.*?)\s=\s(.*)", part, re.S)
            if not equation:
                self.fail(f"{name} has a line that is not read: {part}")
            patterns.append(tuple(tokens(equation[1])))
            terms.append(equation[2])
        if len(terms) < 2:
            self.fail(f"{name} has no equation")
        return Definition(name, "definition", text, parameters, tuple(patterns), tuple(terms), (), ())
