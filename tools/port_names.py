#!/usr/bin/env python3
"""Brings the repository's own definitions and lemmas to today's spelling of names: words in snake case, types and modules in upper camel case.

usage: tools/port_names.py          at the top of the repository, once, right after port.py

A name is renamed where a file of specs/ or proofs/ declares it (a definition, a lemma, a field, a constructor), in every .antt file, in the clauses of src/, in the
must-fail edits and between the backquotes of the pages. Kept: names of src/ (functions, fields, constants), names that Rattle makes (those that only a function's own
proof file declares), types, and the document's words in capitals (PAUSE, RESUME, PAUSED, REFUSED). A lemma
that would have its function's name gets `_lem`; where two other names would fall together, it stops.
"""

import collections
import os
import re
import sys

DECLARED = re.compile(r"^( *)(?:abbrev |unfoldable |ruleset )*(?:pub )?(?:abbrev |unfoldable )*([^\s:(){}.,;λ]+)(?: \{ℓ\})? :(?:\s|$)")
TOKEN = re.compile(r"(?<![A-Za-z0-9_'◌-])[A-Za-z][A-Za-z0-9_'◌₀-₉-]*")
# Names whose old form cites a word of std's that has another name today.
CITED = {"getD-number": "get_or_number"}
# Names bound inside a declaration.
BOUND = ("isDone", "inputAfter", "lineAfter", "first-place", "all-turns", "id-is", "kind-is")


def files(ends):
    for folder, dirs, names in os.walk("crates"):
        dirs[:] = sorted(d for d in dirs if d not in ("out", "target"))
        for name in sorted(names):
            if name.endswith(ends):
                yield os.path.join(folder, name)


def of_a_function(path):
    """Whether it is the proof file of one function, proofs/../F/Proof.antt."""
    return os.path.basename(path) in ("Proof.antt", "Invariants.antt", "Answers.antt")


def turned(name):
    if name in CITED:
        return CITED[name]
    if not re.match(r"[a-z]", name) or not re.fullmatch(r"[A-Za-z0-9'-]+(?:_[A-Za-z0-9'-]+)*", name):
        return name
    word = name.replace("-", "_")
    word = re.sub(r"(?<=[a-z0-9])([A-Z])", lambda m: "_" + m.group(1).lower(), word)
    return re.sub(r"(?<=_)([A-Z])", lambda m: m.group(1).lower(), word)


def main():
    own = collections.defaultdict(set)
    specs = set()
    for path in files((".antt",)):
        with open(path, encoding="utf-8") as f:
            for line in f:
                found = DECLARED.match(line)
                if not found:
                    continue
                name = found.group(2)
                if not of_a_function(path):
                    own[name].add(path)
                elif name.endswith("-spec"):
                    specs.add(name)
    names = {n: turned(n) for n in set(own) | specs | set(BOUND) if turned(n) != n}
    # Two names of one file, or one renamed and one that stands, must not fall together.
    meant = collections.defaultdict(set)
    for n in own:
        meant[turned(n)].add(n)
    clash = {k: v for k, v in meant.items() if len(v) > 1}
    # A lemma that would have its function's name gets `_lem`.
    for k in list(clash):
        lemmas = [n for n in clash[k] if "-" in n] or [n for n in clash[k] if all("/proofs/" in p for p in own[n])]
        if len(lemmas) == 1 and len(clash[k]) == 2:
            names[lemmas[0]] = k + "_lem"
            del clash[k]
    if clash:
        sys.exit("names fall together: " + ", ".join(sorted(clash)))

    def replaced(text):
        return TOKEN.sub(lambda m: names.get(m.group(0), m.group(0)), text)

    changed = 0
    for path in list(files((".antt", ".rt", ".edit"))):
        with open(path, encoding="utf-8") as f:
            old = f.read()
        new = replaced(old)
        if new != old:
            changed += 1
            with open(path, "w", encoding="utf-8") as f:
                f.write(new)
    pages = ["README.md"] + [os.path.join(folder, n) for folder, _, ns in os.walk("docs") for n in ns if n.endswith(".md")]
    for path in pages:
        with open(path, encoding="utf-8") as f:
            old = f.read()
        new = re.sub(r"`[^`\n]+`", lambda m: replaced(m.group(0)), old)
        if new != old:
            changed += 1
            with open(path, "w", encoding="utf-8") as f:
                f.write(new)
    print(f"{len(names)} names, {changed} files")


main()
