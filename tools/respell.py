#!/usr/bin/env python3
"""Brings the definitions and lemmas of this repository to snake case, once, after the older text was brought to the newer kit's words.

usage: python3 tools/respell.py          at the top of the repository, once
       python3 tools/respell.py --list   prints the names that would change, and changes nothing

A name of a definition, a lemma, a constructor or a field (in specs/ and in the lemma files of proofs/) that is no type and no law of a table gets
an underscore before each capital that follows a small letter or a digit, and for each dash. Names of Rust items, of types, of modules and of
what Rattle makes keep their spelling. Files of proofs, sources (in clauses alone they have such names) and must-fail edits are rewritten.
"""
import glob
import os
import re
import sys

DECLARED = re.compile(r"^(\s*)(?:abbrev |unfoldable )?(?:pub )?(?:(?:data|record) )?([^\s:(){}=,.]+)(?: \(.*\)| \{.*\})* :(?: |$)")
TOKEN = re.compile(r"[^\s(){}.,;«»]+")


def read(path):
    with open(path, encoding="utf-8") as f:
        return f.read()


# a lemma that would have its definition's name, and words that the older library had in these names
OWN = {n: n.replace("-", "_") + "_lem" for n in ("all-clear", "all-marked", "natural-of", "parted-by", "near-corners", "near-edge", "near-point", "one-temperature", "work-along")}
OLDER = {"negℤ": "neg_ℤ", "getD": "get_or"}
ALIAS = re.compile(r" as ([a-z]\w*)")


def snake(name):
    if name in OWN:
        return OWN[name]
    for old, new in OLDER.items():
        name = name.replace(old, new)
    name = re.sub(r"(?<=[a-z0-9])([A-Z])", lambda m: "_" + m[1].lower(), name)
    return re.sub(r"(?<=_)([A-Z])(?=$)", lambda m: m[1].lower(), name.replace("-", "_"))


def names():
    """The old names that change, with their new ones."""
    found = {}
    for path in sorted(glob.glob("crates/*/specs/*.antt") + glob.glob("crates/*/proofs/*.antt")):
        for line in read(path).split("\n"):
            m = DECLARED.match(line)
            if not m or line.lstrip().startswith(("--", "use ")):
                continue
            name = m[2]
            if re.match(r"[A-Z]", name) or "Type" in line.split(" : ", 1)[-1].split("→")[-1].split():
                continue
            if name.startswith("◌") and not re.match(r"◌[a-zA-Z]+◌$", name):
                continue
            if name not in OLDER and snake(name) != name:
                found[name] = snake(name)
                if name.startswith("◌"):
                    found[name.strip("◌")] = snake(name).strip("◌")
    for path in files():
        for line in read(path).split("\n"):
            if re.match(r"(ghost )?use .* as ", line):
                found.update((n, snake(n)) for n in ALIAS.findall(line) if snake(n) != n)
    return found


def files():
    for pattern in ("crates/*/src/**/*.rt", "crates/*/specs/*.antt", "crates/*/proofs/**/*.antt", "crates/*/must-fail/*.edit"):
        for path in sorted(glob.glob(pattern, recursive=True)):
            yield path


def main():
    change = names()
    seen = {}
    for path in files():
        for token in TOKEN.findall(read(path)):
            seen.setdefault(token, path)
    for old, new in sorted(change.items()):
        if new in seen:
            print(f"respell: {old} falls together with {new}, which stands in {seen[new]}", file=sys.stderr)
    for new in sorted(set(change.values())):
        olds = [o for o in change if change[o] == new]
        if len(olds) > 1:
            print(f"respell: {' and '.join(olds)} fall together", file=sys.stderr)
    if "--list" in sys.argv:
        for old, new in sorted(change.items()):
            print(old, new)
        return
    for path in files():
        text = read(path)
        new = TOKEN.sub(lambda m: change.get(m[0], m[0]), text)
        if new != text:
            with open(path, "w", encoding="utf-8") as f:
                f.write(new)


if __name__ == "__main__":
    main()
