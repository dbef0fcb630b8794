#!/usr/bin/env python3
"""Lists the places in src/ that read like an older language, by point. docs/DESIGN-PASS.md says what each is worth.

    python3 tools/forms.py [FOLDER]      FOLDER: a checkout (here by default)
"""
import collections
import pathlib
import re
import sys

TOP = pathlib.Path(sys.argv[1] if len(sys.argv) > 1 else ".")
FILES = sorted(p for p in TOP.glob("crates/*/src/**/*.rt"))


def show(point, what, lines):
    print(f"{point}. {what}: {len(lines)}")
    for line in lines:
        print(f"   {line}")


def grep(pattern):
    found = []
    for path in FILES:
        for number, line in enumerate(path.read_text().splitlines(), 1):
            if re.search(pattern, line) and not line.lstrip().startswith("//"):
                found.append(f"{path.relative_to(TOP)}:{number}: {line.strip()}")
    return found


def functions():
    """Each function as (place, name, signature, clauses, body)."""
    for path in FILES:
        text = re.sub(r"//[^\n]*", "", path.read_text())
        for head in re.finditer(r"\bfn (\w+)", text):
            # The body is the first brace at the line's start that is no clause's.
            start = re.compile(r"\n\s*\{\n|\) (?:-> [^\n{;]*)?\{(?=\n)|\{\}").search(text, head.start())
            end = text.find(";", head.start())
            if not start:
                continue
            signature = text[head.start():start.start() + 1]
            if ";" in re.sub(r"\[[^\]]*\]|\{[^}]*\}", "", signature) and end < start.start():
                continue
            at = text.index("{", start.start())
            depth, close = 1, at + 1
            while depth and close < len(text):
                depth += {"{": 1, "}": -1}.get(text[close], 0)
                close += 1
            place = f"{path.relative_to(TOP)}: {head.group(1)}"
            clauses = re.findall(r"(?:requires|ensures\*?)(?: \w+)? \{(.*)\}", signature)
            yield place, head.group(1), signature, clauses, text[at:close]


def twins(shape):
    groups = collections.defaultdict(list)
    for place, _, _, _, body in functions():
        key = shape(body)
        if len(key) > 12:
            groups[tuple(key)].append(place)
    return [" = ".join(g) for g in groups.values() if len(g) > 1]


def tokens(body):
    """A body's tokens with every name, number and text made alike."""
    return [re.sub(r"^[A-Za-z_]\w*$", "x", re.sub(r'^(\d\w*|".*")$', "0", t)) for t in re.findall(r'"[^"]*"|\w+|\S', body)]


def repeated_clauses():
    count = collections.defaultdict(list)
    for place, _, _, clauses, _ in functions():
        for clause in set(re.sub(r"\b(old|new|now)\b", "v", c.strip()) for c in clauses):
            count[clause].append(place)
    return [f"{len(p)} times: {c}  in {', '.join(p)}" for c, p in sorted(count.items(), key=lambda e: -len(e[1])) if len(p) > 2]


def travelling():
    groups = collections.defaultdict(set)
    for place, _, signature, _, _ in functions():
        inside = signature[signature.index("("):]
        names = frozenset(re.findall(r"(\w+): ", inside.split(" ensures")[0].split(" requires")[0])) - {"heap", "rt"}
        if len(names) > 1:
            groups[place] = names
    found = collections.defaultdict(set)
    places = list(groups)
    for i, a in enumerate(places):
        for b in places[i + 1:]:
            both = groups[a] & groups[b]
            if len(both) > 1:
                found[both] |= {a, b}
    return [f"({', '.join(sorted(names))}) in {', '.join(sorted(where))}" for names, where in sorted(found.items(), key=lambda e: -len(e[0])) if len(where) > 2 or len(names) > 3]


show(1, "own enums (which have the shape of Option or Result?)", grep(r"^\s*(pub )?enum "))
show(1, "a number for a refusal", grep(r"Result<[^<>]*, *(u8|u16|u32|u64|usize|bool)>|reason: u\d+|Limit\(u8\)|const (UNPRINTABLE|WRONG_LENGTH|DEPENDENT)\b"))
show(1, "a bool as an answer (which refuse?)", grep(r"\) -> bool"))
show(1, "a flag or a number beside a value", grep(r"\(bool,|, bool\)|: bool,|-> \(u\d+, u\d+\)|Result<\(u\d+, u\d+\)|Ok\(_\) => 0,$|=> \(0, 0\)"))
show(2, "bodies that differ in names and numbers alone", twins(tokens))
show(3, "loops over a range, and while", grep(r"^\s*(while|loop)\b|^\s*for .*\.\."))
show(3, "an index counted by hand, or cut by it", grep(r"\w+ \+= 1;|\[\w+ \* \w+\.\.\(\w+ \+ 1\)"))
show(4, "matches that pass on what they get", grep(r"Ok\((\w+)\) => Ok\(\1\)|Err\((\w+)\) => (return )?Err\(|Err\(_\) => Err"))
show(4, "functions that make a text", grep(r"fn \w+.*-> (Result<String|&'static str|char)"))
show(4, "From, TryFrom, Display, and comparisons by hand", grep(r"^\s*impl.*\b(From|TryFrom|Display|PartialEq|Ord|Clone|Debug|Default)\b.* for "))
show(5, "clauses that stand in three contracts or more", repeated_clauses())
show(5, "parameters that travel together", travelling())
show(6, "arrays in a struct, and buffers", grep(r"^\s+(pub )?\w+: \[.*; ?\w+\],|out: &mut|\[0; [A-Z_]+\]"))
show(7, "matches that run one of several steps", grep(r"Work::\w+(\(.*\))? => "))
old = [f"{p.relative_to(TOP)}: {l.strip()}" for p in sorted(TOP.glob("crates/*/*/**/*.antt")) if "/out/" not in str(p) for l in p.read_text().splitlines() if re.match(r"use (mathlib|lib|Prim|native|denote|borrow)\.", l)]
show(8, "imports by module of the libraries below std", old)
for kind in ("specs", "proofs"):
    files = [p for p in TOP.glob(f"crates/*/{kind}/**/*.antt") if "/out/" not in str(p)]
    print(f"8. {kind}: {len(files)} files, {sum(len(p.read_text().splitlines()) for p in files)} lines")
