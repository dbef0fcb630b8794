#!/usr/bin/env python3
"""Brings the repository's own definitions and lemmas to one spelling, after the kit's port script.

usage: python3 tools/respell.py [--list] [FOLDER]     (default: this folder; --list prints what would change)

A definition, lemma, field or constructor of crates/*/specs/*.antt and crates/*/proofs/*.antt is in snake case, and what is a
type is in upper camel case: wordRow is word_row, lead-has is lead_has, Held-is-one is HeldIsOne. Names of src/, of Rattle's own
making (goals, steps) and of the library keep their spelling, and so does a name that would fall together with another.
"""
import os
import re
import sys

# Outside a comment: a name is what stands between spaces and these.
STOP = r"\s(){}\[\];,.«»\"⌜⌝"
LIBRARY = r"Rattle\.(std|core|std_\w+)\b|mathlib\.|Prim\.|lib\.|native\.|borrow\."
NAME = re.compile(rf"[^{STOP}]+")
DECL = re.compile(r"^\s*((?:abbrev |unfoldable |pub )*)(record |data )?([^\s(){};,.:]+)((?:\s*[({].*?)?)\s*:\s(.*)$")


def antt_files(root):
    for crate in sorted(os.listdir(os.path.join(root, "crates"))):
        for part in ("specs", "proofs"):
            folder = os.path.join(root, "crates", crate, part)
            if os.path.isdir(folder):
                for f in sorted(os.listdir(folder)):
                    if f.endswith(".antt"):
                        yield os.path.join(folder, f)


def all_files(root):
    for crate in sorted(os.listdir(os.path.join(root, "crates"))):
        for part in ("src", "specs", "proofs"):
            for folder, dirs, files in os.walk(os.path.join(root, "crates", crate, part)):
                dirs[:] = sorted(d for d in dirs if d != "out")
                for f in sorted(files):
                    if f.endswith((".rt", ".antt")):
                        yield os.path.join(folder, f)


def code_and_comment(line, mark):
    at = line.find(mark)
    return (line, "") if at < 0 else (line[:at], line[at:])


def statement(lines, i):
    """The text of a signature that begins in line i: its further lines are indented more."""
    text = code_and_comment(lines[i], "--")[0]
    indent = len(lines[i]) - len(lines[i].lstrip())
    for line in lines[i + 1 :]:
        code = code_and_comment(line, "--")[0]
        if not code.strip() or len(code) - len(code.lstrip()) <= indent:
            break
        text += " " + code.strip()
    return text


def declared(root):
    """Own names: name -> whether it is a type."""
    found = {}
    for path in antt_files(root):
        lines = open(path, encoding="utf-8").read().split("\n")
        for i, line in enumerate(lines):
            code = code_and_comment(line, "--")[0]
            if re.match(r"^\s*(use|mod|pub mod|pub use|module|unfolding|open)\b", code):
                continue
            m = DECL.match(code)
            if not m:
                m2 = re.match(r"^\s*(?:abbrev |unfoldable |pub )*(?:record|data)\s+([^\s(){};,.:]+)", code)
                if m2:
                    found[m2.group(1)] = True
                continue
            words, kind, name, _, _ = m.groups()
            if name in ("let", "in", "λ", "where") or code.lstrip().startswith(("let ", "in ", "λ", "|", "[")):
                continue
            whole = statement(lines, i)
            result = whole.rsplit("→", 1)[-1].rsplit(":", 1)[-1] if "→" in whole else whole.rsplit(":", 1)[-1]
            is_type = bool(kind) or bool(re.match(r"^\s*Type [01]\s*(where)?\s*$", result))
            found[name] = found.get(name, False) or is_type
    # Names that an import gives to what is ours.
    for path in all_files(root):
        for m in re.finditer(r"^(?:ghost )?use (Rattle\.[^\s{;]+)\.\{([^}]*)\}", open(path, encoding="utf-8").read(), re.M):
            if not re.match(LIBRARY, m.group(1)):
                for alias in re.findall(r" as ([^\s,]+)", m.group(2)):
                    found.setdefault(alias, alias[0].isupper())
    return found


def respelled(name, is_type):
    parts = [p for p in re.split(r"[-_]", name)]
    if is_type:
        if "-" not in name and "_" not in name:
            return name
        return "".join(p[:1].upper() + p[1:] for p in parts)
    name = name.replace("getD", "get_or")
    return re.sub(r"(?<=[a-z0-9])([A-Z])", lambda m: "_" + m.group(1).lower(), name.replace("-", "_"))


def imported(text):
    """Names that a file takes from the library."""
    names = set()
    for m in re.finditer(r"^\s*(?:ghost )?use ([^\s{;]+)\.\{([^}]*)\}", text, re.M):
        if re.match(LIBRARY, m.group(1)):
            names.update(w.strip().split(" as ")[-1].strip() for w in m.group(2).split(","))
    return names


def plan(root):
    own = declared(root)
    new = {}
    for name, is_type in sorted(own.items()):
        to = respelled(name, is_type)
        if to != name:
            new[name] = to
    # A lemma that would have its function's name ends in _lem.
    for name, to in list(new.items()):
        if "-" in name and (to in own or any(n != name and "-" not in n and new[n] == to for n in new)):
            new[name] = to + "_lem"
    texts = {p: open(p, encoding="utf-8").read() for p in all_files(root)}
    taken = set().union(*(imported(t) for t in texts.values()))
    made = set()
    for p, t in texts.items():
        made.update(re.findall(r"(?:goal|given)\.([^\s(){};,.]+)", t))
        if os.path.basename(p) in ("Answers.antt", "Invariants.antt", "Given.antt"):
            made.update(m.group(1) for m in re.finditer(r"\b(?:c|w|g|l)\.([^\s(){};,.]+)", t))
    kept = {}
    for name, to in list(new.items()):
        why = None
        if name in taken:
            why = "the library has that name, and it is used here"
        elif name in made:
            why = "Rattle makes that name"
        elif to in own:
            why = f"{to} is there already"
        elif to in taken:
            why = f"{to} is a name of the library that is used here"
        elif list(new.values()).count(to) > 1:
            why = f"two names would be {to}"
        if why:
            kept[name] = (to, why)
            del new[name]
    return new, kept


def turn(text, new, mark):
    out = []
    for line in text.split("\n"):
        code, comment = code_and_comment(line, mark)
        code = NAME.sub(lambda m: new.get(m.group(0), m.group(0)), code)
        comment = re.sub(r"`([^`]+)`", lambda m: "`" + NAME.sub(lambda n: new.get(n.group(0), n.group(0)), m.group(1)) + "`", comment)
        out.append(code + comment)
    return "\n".join(out)


def main():
    args = [a for a in sys.argv[1:] if a != "--list"]
    root = args[0] if args else "."
    new, kept = plan(root)
    for name, to in sorted(new.items()):
        if "--list" in sys.argv:
            print(f"{name} -> {to}")
    for name, (to, why) in sorted(kept.items()):
        print(f"kept: {name} (not {to}): {why}")
    if "--list" in sys.argv:
        return
    for path in all_files(root):
        text = open(path, encoding="utf-8").read()
        turned = turn(text, new, "//" if path.endswith(".rt") else "--")
        if turned != text:
            open(path, "w", encoding="utf-8").write(turned)
    print(f"{len(new)} names turned")


main()
