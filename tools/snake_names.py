#!/usr/bin/env python3
"""Spells the repository's own definitions and lemmas as today's library does: words in snake case, types in camel case.

Run once at the top, after port.py. It takes the names that the files of specs/ and the lemma files of proofs/ define
(definitions, lemmas, records, their fields, the cases of a data type), and renames those that have a dash or a hump, in
every .antt file, in every .rt file's ghost text, and in the must-fail edits. A name that Rattle makes, such as a goal's,
keeps its dashes: behind a dot only a field of a record is renamed. So do the names that a definition or a lemma binds
for itself. It stops where two names would fall together.
"""
import glob
import os
import re
import sys

WORD = re.compile(r"[^\s.,:;(){}\[\]«»λ∷]+")
HEAD = re.compile(r"^(\s*)((?:(?:pub|abbrev|unfoldable)\s+)*)((?:record|data)\s+)?([^\s.,:;(){}\[\]]+)\s*(?=:|\(|\{|where)")
FIXED = {"getD-fits": "get_or_fits", "readOn-ge": "read_on_ge"}


def antt_files():
    return sorted(glob.glob("crates/*/specs/**/*.antt", recursive=True) + glob.glob("crates/*/proofs/**/*.antt", recursive=True))


def is_lemma_file(path):
    parts = path.split("/")
    return parts[2] == "specs" or (parts[2] == "proofs" and len(parts) == 4)


def defined():
    """Each name that is defined, and whether it is a field or a case, which stands behind a dot."""
    names, fields = set(), set()
    for path in antt_files():
        if not is_lemma_file(path):
            continue
        inside = None
        for line in open(path, encoding="utf-8"):
            text = line.split("--")[0].rstrip() if line.lstrip().startswith("--") else line.rstrip()
            if not text.strip() or text.lstrip().startswith(("use ", "mod ", "pub mod ", "module ", "unfolding ")):
                continue
            m = HEAD.match(text)
            if not text[0].isspace():
                inside = "record" if re.match(r"(pub )?record ", text) else "data" if re.match(r"(pub )?data ", text) else None
            if not m or (m.group(1) and inside is None and ":" not in text[m.end():m.end() + 2]):
                continue
            name = m.group(4)
            if name in ("let", "in", "elim", "record", "pub", "abbrev", "|", "→", "="):
                continue
            (fields if m.group(1) and inside == "record" else names).add(name)
    return names, fields


def spelled(name):
    if name in FIXED:
        return FIXED[name]
    if "-" not in name:
        return name
    if name[0].isupper():
        return "".join(part[:1].upper() + part[1:] for part in name.split("-"))
    return name.replace("-", "_")


def rust_names():
    found = set()
    for path in glob.glob("crates/*/src/**/*.rt", recursive=True):
        found |= set(re.findall(r"\b(?:const|static|struct|enum|type|ghost)\s+([A-Za-z_]\w*)", open(path, encoding="utf-8").read()))
        found |= set(re.findall(r"^\s*(?:pub(?:\([a-z]+\))? )?([a-z_]\w*): ", open(path, encoding="utf-8").read(), re.M))
    return found


def renamed(text, table, fields):
    def word(m):
        token, start = m.group(0), m.start()
        if token not in table:
            return token
        behind_dot = start > 0 and text[start - 1] == "." and start > 1 and not text[start - 2].isspace()
        if behind_dot and token not in fields and not re.search(r"(?:[A-Z]\w*|specs|proofs)\.$", text[max(0, start - 40):start]):
            return token
        return table[token]
    return WORD.sub(word, text)


def locals_renamed(text):
    """Names that a lemma or definition binds for itself, in a file of definitions or lemmas."""
    imported = set()
    for line in text.split("\n"):
        if line.startswith(("use ", "pub use ")):
            imported |= set(WORD.findall(line))

    def word(m, code):
        token, start = m.group(0), m.start()
        plain = re.fullmatch(r"[a-z][A-Za-z0-9_']*(?:-[A-Za-z0-9_']+)+", token)
        behind_dot = start > 0 and code[start - 1] == "."
        return token.replace("-", "_") if plain and not behind_dot and token not in imported else token

    lines = []
    for line in text.split("\n"):
        if line.lstrip().startswith("--") or line.startswith(("use ", "pub use ")):
            lines.append(line)
        else:
            code = line.split(" -- ")[0]
            lines.append(WORD.sub(lambda m: word(m, code), code) + line[len(code):])
    return "\n".join(lines)


def main():
    names, fields = defined()
    table = {n: spelled(n) for n in names | fields if spelled(n) != n}
    taken = {}
    bad = []
    for n in sorted(names | fields):
        taken.setdefault(table.get(n, n), set()).add(n)
    for new, olds in sorted(taken.items()):
        if len(olds) > 1:
            bad.append(f"{new}: {', '.join(sorted(olds))}")
    rust = rust_names()
    for old, new in sorted(table.items()):
        if new in rust and old in names:
            print(f"look: {old} is {new} now, which src/ has too")
    if bad:
        print("\n".join(["these would fall together:"] + bad))
        if "--force" not in sys.argv:
            return 1
    changed = 0
    for path in antt_files() + sorted(glob.glob("crates/*/must-fail/*.edit")) + sorted(glob.glob("crates/*/src/**/*.rt", recursive=True)):
        text = open(path, encoding="utf-8").read()
        new = renamed(text, table, fields)
        if path.endswith(".antt") and is_lemma_file(path):
            new = locals_renamed(new)
        if new != text:
            changed += 1
            open(path, "w", encoding="utf-8").write(new)
    print(f"{len(table)} names, {changed} files")
    return 0


sys.exit(main())
