#!/usr/bin/env python3
"""The tool of a record, docs/DESIGN-PASS.md: lists the places that the page counts, point by point, in the repository or in a commit of it.

    python3 tools/places.py [COMMIT]

The patterns find more places than have to change. Whoever reads a place decides.
"""
import collections
import re
import subprocess
import sys


def git(*words):
    return subprocess.run(["git", *words], check=True, capture_output=True, text=True).stdout


def files(commit, part):
    pattern = re.compile(rf"crates/\w+/{part}/.*\.(rt|antt)$")
    if commit:
        names = [n for n in git("ls-tree", "-r", "--name-only", commit).splitlines() if pattern.match(n)]
        return {n: git("show", f"{commit}:{n}") for n in names}
    names = [n for n in git("ls-files", "--cached", "--others", "--exclude-standard").splitlines() if pattern.match(n)]
    return {n: open(n).read() for n in names}


def plain(text):
    """The text with its comments blank, line for line."""
    return re.sub(r"//[^\n]*", "", text)


def lines(sources, pattern):
    for name, text in sources.items():
        for number, line in enumerate(text.splitlines(), 1):
            if re.search(pattern, line):
                yield f"{name}:{number} {line.strip()[:90]}"


def closing(text, start):
    """The place after the brace that closes the one at a place."""
    depth = 0
    for at in range(start, len(text)):
        depth += {"{": 1, "}": -1}.get(text[at], 0)
        if depth == 0:
            return at + 1
    return len(text)


def functions(sources):
    """File, name, parameters, result with contract, and body of each function that is no wrapper for C."""
    for name, text in sources.items():
        for m in re.finditer(r"\bfn (\w+)(?:<[^>]*>)?\(([^)]*)\)", text):
            start = at = m.end()
            # The clauses of the contract are in braces too: each is named or follows its word at once. An array's type has a semicolon.
            while at < len(text) and (text[at] not in "{;" or text[at] == ";" and text[start:at].count("[") > text[start:at].count("]")):
                at += 1
                if text[at] == "{" and re.search(r"(requires|ensures)( \w+)? $", text[start:at]):
                    at = closing(text, at)
            if m[1].startswith("bgz_") or at == len(text) or text[at] == ";":
                continue
            yield name, m[1], [" ".join(p.split()) for p in m[2].split(",") if p.strip()], text[start:at], text[at : closing(text, at)]


def several(pairs, least):
    """What stands in at least so many places, with the places."""
    found = collections.defaultdict(list)
    for key, place in pairs:
        found[key].append(place)
    return [f"{len(v)} times {k}: {', '.join(sorted(set(v)))}"[:230] for k, v in found.items() if len(v) >= least]


def shape(body):
    """A body with its names of types, its numbers and its fields' names gone."""
    body = re.sub(r"\b[A-Z]\w*(::\w+)?|\b\d[\w.]*|\b[uif]\d+\b|\busize\b", "_", body)
    return " ".join(re.sub(r"\.[a-z]\w*|\b[a-z]\w*:", ".", body).split())


def main():
    commit = sys.argv[1] if len(sys.argv) > 1 else None
    sources = {n: plain(t) for n, t in files(commit, "src").items()}
    bodies = list(functions(sources))
    own = [b for b in bodies if not b[0].startswith("crates/c_")]
    requires = [
        (atom.strip(" ()"), f"{place}:{name}")
        for place, name, _, contract, _ in bodies
        for clause in re.findall(r"requires (?:\w+ )?\{(.*?)\}", contract, re.S)
        for atom in clause.split("×")
    ]
    together = [
        (f"({p}, {q})", name)
        for _, name, parameters, _, _ in own
        for i, p in enumerate(parameters)
        for q in parameters[i + 1 :]
        if not p.endswith("self")
    ]
    counted = r"^(at|n|k|c|r|count|room|from|steps|width|height|size): (usize|u32)$"
    proofs = files(commit, "proofs")
    points = {
        "1 enums": lines(sources, r"^\s*(pub(\(crate\))? )?enum "),
        "1 refusals by number": lines(sources, r"\brefusal::[A-Z_]+|Refused\(\d+\)|const [A-Z_]+: u32 = \d+;"),
        "1 a flag or a status with a value beside it": lines(sources, r"^\s+(pub(\(crate\))? )?(missed|fits|status|hit): (bool|u32|f32),$"),
        "1 a value that stands for none": (f"{b[0]} {b[1]}" for b in own if re.search(r"return (0|\[0; 8\]);", b[4])),
        "2 names in several modules": several([(b[1], b[0]) for b in own], 2),
        "2 bodies of one shape": several([(shape(b[4]), f"{b[0]}:{b[1]}") for b in bodies if len(b[4]) > 40], 2),
        "3 loops": lines(sources, r"^\s*('\w+: )?(while|loop)\b|= loop \{"),
        "3 loops over numbers": lines(sources, r"^\s*('\w+: )?for \w+ in [^{]*\.\."),
        "4 types with less than Clone, Copy, Debug, PartialEq": (
            f"{name} {m[2]}" for name, text in sources.items()
            for m in re.finditer(r"#\[derive\(([^)]*)\)\]\n(?:#\[[^\n]*\n)*\s*(?:pub(?:\(crate\))? )?(?:struct|enum) (\w+)", text)
            if not {"Clone", "Copy", "Debug", "PartialEq"} <= set(m[1].replace(",", " ").split())
        ),
        "4 functions from one type of the repository to another": (
            f"{b[0]} {b[1]}" for b in bodies
            if len(b[2]) == 1 and re.search(r": [A-Z]\w+$", b[2][0]) and re.search(r"-> [A-Z]\w+", b[3])
        ),
        "5 facts asked by three functions or more": several(requires, 3),
        "5 parameters together in four functions or more": several(together, 4),
        "6 a list with a place or a length beside it": (
            f"{b[0]} {b[1]}({', '.join(b[2])})" for b in own
            if any("[" in p and "&" in p for p in b[2]) and any(re.match(counted, p) for p in b[2])
        ),
        "7 a switch on a step, a table of functions": lines(sources, r"(if|match) (turn|step|state)\b|\bfn\(|\bdyn "),
        "8 answers to goals": (f"{n} {len(t.splitlines())} lines" for n, t in proofs.items() if n.endswith("/Answers.antt")),
    }
    for title, places in points.items():
        places = list(places)
        print(f"{title}: {len(places)}")
        for place in places:
            print(f"    {place}")
    print(f"lines: src {sum(len(t.splitlines()) for t in files(commit, 'src').values())}, "
          f"specs {sum(len(t.splitlines()) for t in files(commit, 'specs').values())}, "
          f"proofs {sum(len(t.splitlines()) for t in proofs.values())}")


if __name__ == "__main__":
    main()
