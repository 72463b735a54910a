#!/usr/bin/env python3
"""Gives the definitions and lemmas of specs/ and proofs/ the library's spelling: words in snake case, types in camel case.

usage: python3 tools/respell.py            at the top of the repository, once, after the kit's own script
       python3 tools/respell.py --list     prints what would change, and changes nothing

Renamed is what specs/ and proofs/ declare (definitions, lemmas, fields of records, cases of data), wherever it is cited there
or in a clause of src/. Code, comments and texts stay. A new name that a file has already is told, and nothing is written.
"""

import os
import re
import sys

DECLARED = re.compile(
    r"^\s*(?:(?:abbrev|unfoldable|opaque|pub|record|data)\s+)*([A-Za-z][\w'-]*)\s*(?:\{.*?\}\s*|\(.*?\)\s*)*:\s"
)
TOKEN = re.compile(r"(?<![\w'-])[A-Za-z][\w'-]*")
CLAUSE = re.compile(r"^\s*(?:(?:pub\s+)?ghost\b|ensures\b|requires\b)")

# Where two names would fall together, the lemma gets another.
OTHERWISE = {
    "bit-or": "bit_of_or",
    "key_in": "key_laid",
    "left_in": "left_formed",
    "limit-in": "limit_formed",
    "used-in": "used_formed",
}
# These have the name of a function of src/ now, whose contract says that it answers them.
LIKE_A_FUNCTION = {"keyEnd", "layerNumber", "wellFormed"}


def respelled(name):
    if name in OTHERWISE:
        return OTHERWISE[name]
    if name[0].isupper():
        return re.sub(r"-(\w)", lambda m: m.group(1).upper(), name)
    return re.sub(r"(?<=[a-z0-9])([A-Z])", r"_\1", name).lower().replace("-", "_")


def files():
    for folder, dirs, names in os.walk("crates"):
        dirs[:] = sorted(d for d in dirs if d not in ("out", "must-fail", "data"))
        for name in sorted(names):
            path = os.path.join(folder, name)
            if name.endswith(".antt") or (name.endswith(".rt") and "/src/" in path):
                yield path


def declared(texts):
    names = set()
    for path, text in texts.items():
        # what answers and invariants declare has names that the check makes
        made = "/proofs/" in path and os.path.basename(path) in ("Answers.antt", "Invariants.antt")
        if path.endswith(".antt") and not made:
            names.update(m.group(1) for m in map(DECLARED.match, text.split("\n")) if m)
    return {n: respelled(n) for n in names if respelled(n) != n}


def turn_line(line, names, mark="-- "):
    code, mark, comment = line.partition(mark)
    code = TOKEN.sub(lambda m: names.get(m.group(0), m.group(0)), code)
    return re.sub(r"\b(\w+) as \1\b", r"\1", code) + mark + comment


def turn_clauses(text, names):
    """Turns a .rt file: only clauses and ghost items, to the brace that ends each."""
    out, depth, inside = [], 0, False
    for line in text.split("\n"):
        if not inside and CLAUSE.match(line):
            inside, depth = True, 0
        if not inside:
            out.append(line)
            continue
        out.append(turn_line(line, names, "// "))
        code = line.partition("// ")[0]
        depth += code.count("{") - code.count("}")
        inside = depth > 0
    return "\n".join(out)


def fallen_together(texts, names):
    for path, text in texts.items():
        tokens = set(TOKEN.findall(text))
        for old in sorted(names.keys() & tokens - LIKE_A_FUNCTION):
            new = names[old]
            if new in tokens and new not in names and f"{old} as {new}" not in text:
                yield f"{path}: {old} would become {names[old]}, which stands there already"
    by_new = {}
    for old, new in sorted(names.items()):
        if new in by_new:
            yield f"{by_new[new]} and {old} would both become {new}"
        by_new[new] = old


def main():
    texts = {}
    for path in files():
        with open(path, encoding="utf-8") as f:
            texts[path] = f.read()
    names = declared(texts)
    if "--list" in sys.argv:
        for old, new in sorted(names.items()):
            print(old, new)
    bad = list(fallen_together(texts, names))
    for line in bad:
        print(line)
    if bad or "--list" in sys.argv:
        return 1 if bad else 0
    for path, text in texts.items():
        if path.endswith(".antt"):
            turned = "\n".join(turn_line(line, names) for line in text.split("\n"))
        else:
            turned = turn_clauses(text, names)
        if turned != text:
            with open(path, "w", encoding="utf-8") as f:
                f.write(turned)
    print(f"{len(names)} names")
    return 0


if __name__ == "__main__":
    sys.exit(main())
