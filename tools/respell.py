#!/usr/bin/env python3
"""Brings the repository's own definitions and lemmas to today's spelling, after port.py: words in snake case, specs/Contracts.antt under
another name, since Rattle makes a module of that name itself. Run it once, at the top of the repository.

What it changes: tokens in crates/**/*.antt and *.rt (clauses, imports and comments; no Rust name has a capital inside a lower-case word),
and the same tokens in must-fail edits. It prints names that fall together."""

import collections
import os
import re
import subprocess

TOKEN = re.compile(r"[A-Za-z_][\w'\-]*")

# names that would fall together with a definition of the new spelling
FIRST = {
    "some_below": "some_below-at",
    "row_fine": "row_fine-spans",
    "row_counts": "row_counts-cells",
    "rows_right": "rows_right-rows",
    "part_by": "part_by-flat",
}
# where such a name is meant: a lemma of these files, and not a field or a Rust function of the same name
FIRST_IN = re.compile(
    r"crates/(lists/proofs/BelowLaws|ring/proofs/RingLaws|rounds/proofs/LimitLaws|boxes/proofs/RowLaws|boxes/proofs/count_row/Proof"
    r"|map/proofs/CountLaws|records/specs/Examples|abi/proofs/FlatLaws)\.antt$"
)
CONTRACTS = [(re.compile(r"\bspecs\.Contracts\b"), "specs.Promises"), (re.compile(r"^(pub mod) Contracts$", re.M), r"\1 Promises")]


def snake(word):
    word = word.replace("getD", "get_or")
    return re.sub(r"(?<=[a-z0-9])([A-Z])", lambda m: "_" + m.group(1).lower(), word)


def is_camel(word):
    return re.match(r"[a-z]", word) and re.search(r"[a-z0-9][A-Z]", word)


def files(endings):
    for folder, dirs, names in os.walk("crates"):
        dirs[:] = sorted(d for d in dirs if d != "out")
        for name in sorted(names):
            if name.endswith(endings):
                yield os.path.join(folder, name)


def without_comments(text):
    return re.sub(r"--+ .*", "", text)


def main():
    seen = collections.Counter()
    for path in files((".antt",)):
        seen.update(TOKEN.findall(without_comments(open(path, encoding="utf-8").read())))
    camel = {w: snake(w) for w in seen if is_camel(w)}
    for old, new in sorted(camel.items()):
        if new in seen and new not in FIRST:
            print(f"look: {old} becomes {new}, which stands already")
    for path in files((".antt", ".rt", ".edit")):
        text = open(path, encoding="utf-8").read()
        made = text
        if FIRST_IN.search(path):
            made = TOKEN.sub(lambda m: FIRST.get(m.group(), m.group()), made)
        made = TOKEN.sub(lambda m: camel.get(m.group(), m.group()), made)
        for pattern, new in CONTRACTS:
            made = pattern.sub(new, made)
        made = made.replace("specs/Contracts.antt", "specs/Promises.antt")
        if made != text:
            with open(path, "w", encoding="utf-8") as f:
                f.write(made)
    for path in list(files((".antt",))):
        if path.endswith("/specs/Contracts.antt"):
            subprocess.run(["git", "mv", path, path.replace("Contracts.antt", "Promises.antt")], check=True)


main()
