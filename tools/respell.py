#!/usr/bin/env python3
"""Spells the repository's own definitions and lemmas in snake case, as types keep camel case: `isLiteral` and
`well-formed` become `is_literal` and `well_formed`. Only names that specs/ and the lemma files of proofs/ declare are
turned; names that the check makes, functions of src/, strings and inputs keep theirs.

usage: respell.py [--list] [FOLDER]      FOLDER has crates/; --list prints the table and what falls together, and writes nothing
Run it once, right after the kit's port.py.
"""
import collections
import os
import re
import sys

WORD = re.compile(r"(?<![\w'\u25cc\-])[A-Za-z_][\w']*(?:-[\w']+)*")
DECLARED = re.compile(r"^\s*(?:abbrev\s+)?(?:pub\s+)?([A-Za-z_][\w']*(?:-[\w']+)*)\s+:\s")
# names that a plain turn would spell badly, or as another name of the same module
BY_HAND = {
    "getD-in": "get_or_in",
    # names that had landed
    "sumBelow": "sum",
    "codeClauses": "codes",
    # another name of the same module has the plain spelling
    "twoByTwo": "two_against_two",
    "twoByThree": "two_against_three",
    "first-broken": "first_broken_is",
    "others-of": "others_of_all",
    "opened-variables": "variables_of_opened",
}


def snake(name):
    """The name in snake case. A part that begins with a capital is a type's name, and stays after a dash."""
    if name in BY_HAND:
        return BY_HAND[name]
    s = re.sub(r"(?<=[a-z0-9'])([A-Z])", lambda m: "_" + m[1].lower(), name)
    return s.replace("-", "_")


def texts(root):
    for folder, dirs, files in os.walk(os.path.join(root, "crates")):
        dirs[:] = sorted(d for d in dirs if d != "out")
        for f in sorted(files):
            if f.endswith((".rt", ".antt", ".edit")):
                yield os.path.join(folder, f)


def is_lemmas(root, path):
    """A file of specs/, or one right in proofs/: what it declares is the repository's own."""
    parts = os.path.relpath(path, root).split(os.sep)
    return path.endswith(".antt") and len(parts) == 4 and parts[2] in ("specs", "proofs")


def read(p):
    with open(p, encoding="utf-8") as f:
        return f.read()


def own_names(root):
    """The names to turn, and those of them that are fields of records."""
    names, fields = set(), set()
    for p in texts(root):
        if not is_lemmas(root, p):
            continue
        inside = False
        for line in read(p).split("\n"):
            if line and not line[0].isspace():
                inside = bool(re.match(r"(?:pub\s+)?record\s", line))
            m = DECLARED.match(line)
            if not m:
                continue
            n = m[1]
            if n[0].isupper() or snake(n) == n:
                continue
            names.add(n)
            if inside and line[0].isspace():
                fields.add(n)
    return names, fields


def blanked(text):
    """Spans of strings and comments of a .rt file, which stay."""
    spans, i, n = [], 0, len(text)
    while i < n:
        if text.startswith("//", i):
            j = text.find("\n", i)
            j = n if j < 0 else j
            spans.append((i, j))
        elif text[i] == '"':
            j = i + 1
            while j < n and text[j] != '"':
                j += 2 if text[j] == "\\" else 1
            j += 1
            spans.append((i, j))
        elif text[i] == "'" and (m := re.match(r"'(?:\\.|[^'\\\n])'", text[i:])):
            j = i + m.end()
        else:
            i += 1
            continue
        i = j
    return spans


def turned(path, text, names, fields):
    made = set()
    if path.endswith(".antt"):
        made = set(re.findall(r"\b(?:goal|given)\.([A-Za-z_][\w']*(?:-[\w']+)*)", text))
    # a name that this file brings from a library of the kit
    brought = set()
    for m in re.finditer(r"(?m)^\s*(?:ghost\s+)?use\s+(?:Rattle\.std|lib|mathlib|native|Prim|mir)\b[^{}\n]*\{([^}]*)\}", text):
        brought |= {it.split(" as ")[-1].strip() for it in m[1].split(",")}
    spans = blanked(text) if path.endswith(".rt") else []
    comments = [(m.start(), m.end()) for m in re.finditer(r"--[ \-].*", text)] if path.endswith(".antt") else []

    def one(m):
        w = m[0]
        if w not in names or w in made or w in brought:
            return w
        a = m.start()
        if any(s <= a < e for s, e in spans):
            return snake(w) if text[a - 1 : a] == "`" and text[m.end() : m.end() + 1] == "`" else w
        if any(s <= a < e for s, e in comments):
            return snake(w) if text[a - 1 : a] == "`" and text[m.end() : m.end() + 1] == "`" else w
        if text[a - 1 : a] == "." and w not in fields:
            return w
        return snake(w)

    return WORD.sub(one, text)


def together(root, names):
    """Names that one module would have twice."""
    for p in texts(root):
        if not is_lemmas(root, p):
            continue
        seen = collections.defaultdict(set)
        for line in read(p).split("\n"):
            m = DECLARED.match(line)
            if m and line[0:1].strip():
                seen[snake(m[1]) if m[1] in names else m[1]].add(m[1])
        for new, olds in seen.items():
            if len(olds) > 1:
                yield os.path.relpath(p, root), new, sorted(olds)


def main(argv):
    only = "--list" in argv
    rest = [a for a in argv if a != "--list"]
    root = os.path.abspath(rest[0] if rest else ".")
    names, fields = own_names(root)
    for it in together(root, names):
        print("together:", *it)
    if only:
        for n in sorted(names):
            print(n, snake(n), "field" if n in fields else "", sep="\t")
        return 0
    changed = 0
    for p in texts(root):
        t = read(p)
        u = turned(p, t, names, fields)
        if u != t:
            changed += 1
            with open(p, "w", encoding="utf-8") as f:
                f.write(u)
    print(f"respell: {len(names)} names, {changed} files")
    return 0


if __name__ == "__main__":
    raise SystemExit(main(sys.argv[1:]))
