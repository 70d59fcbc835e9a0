#!/usr/bin/env python3
"""Brings the names of this repository's definitions and lemmas to snake case, types to camel case, in crates/, README.md and docs/.

usage: tools/spell.py [--dry]        at the top of the repository, once, right after the kit's port.py

A name is renamed where it is this repository's own: declared in a file of specs/ or proofs/, and not brought in from elsewhere in the file at hand. What
stands in a comment or a page is renamed between backticks alone. Names that would fall together are printed, and left.
"""
import glob
import os
import re
import sys

WORD = r"[^\s(){}.;,`\"⌜⌝]+"
# Names that the rule would let fall together with another of ours.
OTHER = {"Leaf-row": "IsLeafRow", "Digits·digits": "digits_of"}
# Words of the older library that stand in names of ours.
WORDS = {"flatMap": "flat_map", "getD": "get_or"}
# A file of answers: its names are those of the goals.
ANSWERS = re.compile(r"\.(Goals|Given) as goal")
KIT = ("Prim", "native", "mathlib", "lib", "borrow", "denote", "mir")


def antt_files():
    return sorted(glob.glob("crates/*/specs/**/*.antt", recursive=True) + glob.glob("crates/*/proofs/**/*.antt", recursive=True))


def own_crates():
    return sorted(os.listdir("crates"))


def uncommented(text):
    return re.sub(r"--(?=\s).*", "", text)


def declared(text):
    """The names to be renamed that stand before a colon, an equation's head included, or are bound by λ or let."""
    names = set()
    code = uncommented(text)
    for line in code.split("\n"):
        for part in re.finditer(r"((?:%s[ ]+)*%s) :(?=\s|$)" % (WORD, WORD), line):
            names.update(part.group(1).split())
        for part in re.finditer(r"(?:λ|let)\s+(%s)" % WORD, line):
            names.add(part.group(1))
        for part in re.finditer(r"let\s+\(([^()]*)\) =", line):
            names.update(n.strip() for n in part.group(1).split(","))
        head = re.match(r"\s*(?:(?:pub|abbrev|unfoldable|record|data|ruleset|module)\s+)*(%s)" % WORD, line)
        if head:
            names.add(head.group(1))
        for part in re.finditer(r"\b(%s) (?:as )" % WORD, line):
            names.add(part.group(1))
    return {n for n in names if re.fullmatch(r"[^\W\d_+][^\s]*|[∅∪⊎][^\s]*", n) and not n.startswith("-") and respelled(n) != n}


def foreign(text):
    """The names that a file brings in from elsewhere than this repository."""
    ours = set(own_crates())
    names = set()
    for use in re.finditer(r"use\s+([^\s{;]+)\.\{([^}]*)\}", text):
        path = use.group(1).split(".")
        mine = path[0] not in KIT and (path[0] != "Rattle" or path[1] in ours)
        made = mine and any(p in ("declared", "contracts") or "Tie" in p or p in ("Reads", "Kinds", "Statement", "Given", "Goals") for p in path)
        if not mine or made:
            for item in use.group(2).split(","):
                names.add(item.split(" as ")[-1].strip())
    return names


def respelled(name):
    if name in OTHER:
        return OTHER[name]
    if name[0].isupper():
        return "".join(p[:1].upper() + p[1:] for p in name.split("-"))
    for old, new in WORDS.items():
        name = name.replace(old, new)
    return name.replace("-", "_")


def table():
    names = set()
    for path in antt_files():
        if path.endswith("/Proof.antt") or "/Proof/" in path:
            continue
        with open(path, encoding="utf-8") as f:
            text = f.read()
        if ANSWERS.search(text):
            continue
        names |= declared(text) - foreign(text)
        names |= {n for n in OTHER if f" as {n}" in text}
    return {n: respelled(n) for n in sorted(names)}


TOKEN = re.compile(WORD)


def renamed_code(text, names):
    return TOKEN.sub(lambda m: names.get(m.group(0), m.group(0)), text)


def renamed_quoted(text, names):
    return re.sub(r"`[^`\n]+`", lambda m: renamed_code(m.group(0), names), text)


def renamed(text, names, comment):
    lines = []
    for line in text.split("\n"):
        m = re.search(r"(^|\s)%s(?=\s|$)" % re.escape(comment), line)
        if m:
            at = m.start() + len(m.group(1))
            lines.append(renamed_code(line[:at], names) + renamed_quoted(line[at:], names))
        else:
            lines.append(renamed_code(line, names))
    return "\n".join(lines)


def edit_of(text, names):
    """A wrong program: its old and new text in the spelling of today."""
    out = []
    for line in text.split("\n"):
        if line.startswith(("old: ", "new: ")):
            line = line.replace("Rattle·theory.specs", "Rattle.theory.specs")
            line = re.sub(r"(?<=[\w')])[ ]\.(?=[a-z])", ".", line)
            line = renamed_code(line, names)
        out.append(line)
    return "\n".join(out)


def main(argv):
    dry = "--dry" in argv
    names = table()
    count = 0
    for path in antt_files() + sorted(glob.glob("crates/*/src/**/*.rt", recursive=True)):
        with open(path, encoding="utf-8") as f:
            text = f.read()
        if ANSWERS.search(text):
            continue
        outside = foreign(text)
        here = {a: b for a, b in names.items() if a not in outside or a in OTHER}
        tokens = set(TOKEN.findall(text))
        for a in sorted(tokens & set(here)):
            if here[a] in tokens:
                print(f"{path}: {a} falls together with {here[a]}")
        turned = renamed(text, here, "--" if path.endswith(".antt") else "//")
        if turned != text:
            count += 1
            if not dry:
                with open(path, "w", encoding="utf-8") as f:
                    f.write(turned)
    for path in sorted(glob.glob("crates/*/must-fail/*.edit")):
        with open(path, encoding="utf-8") as f:
            text = f.read()
        turned = edit_of(text, names)
        if turned != text:
            count += 1
            if not dry:
                with open(path, "w", encoding="utf-8") as f:
                    f.write(turned)
    for path in ["README.md"] + sorted(glob.glob("docs/*.md")):
        if path == "docs/PORT.md":
            continue
        with open(path, encoding="utf-8") as f:
            text = f.read()
        turned = renamed_quoted(text, names)
        if turned != text:
            count += 1
            if not dry:
                with open(path, "w", encoding="utf-8") as f:
                    f.write(turned)
    print(f"{len(names)} names, {count} files")
    if dry:
        for a, b in names.items():
            print(a, b)


if __name__ == "__main__":
    main(sys.argv[1:])
