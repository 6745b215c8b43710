#!/usr/bin/env python3
"""Brings the repository's own definitions and lemmas to one spelling: words in snake case, types and modules in camel case.

usage: tools/spell.py        at the top of a tree that port.py has just turned

Each name that a file of specs/ or proofs/*.antt declares, and that begins with a small letter, is written with '_' between its words:
canPair becomes can_pair, least-energy becomes least_energy. Names of src/, names that Rattle makes for proofs, strings, inputs and
outputs are left. OTHER has the few names that would fall together with something else.
"""

import glob
import re

# A name that has to be another one than its words give: a tactic's or a function's name, or one that is taken in the same file.
OTHER = {
    "first_of": "first_passing",  # a tactic
    "inner-at": "inner_at_lem",
    "is-paired": "is_paired_lem",
    "armed-in": "armed_in_lem",
    "kind-by": "kind_by_lem",
    "refusal-of": "refusal_of_lem",
}

DECLARED = re.compile(r"\s*(?:(?:abbrev|unfoldable|pub)\s+)*([^\s(){}:;,]+)(?=\s*(?:[({].*)?:\s)")
CONSTRUCTOR = re.compile(r"\s*\|?\s*([^\s(){}:;,|]+)\s*:\s")


def files(*patterns):
    return sorted(f for p in patterns for f in glob.glob(p, recursive=True) if "/out/" not in f)


def snake(name):
    parts = re.sub(r"(?<=[a-z0-9])([A-Z])", lambda m: "_" + m.group(1).lower(), name)
    return parts.replace("-", "_")


def declared():
    names = set()
    for path in files("crates/*/specs/**/*.antt", "crates/*/proofs/*.antt"):
        with open(path, encoding="utf-8") as f:
            for line in f:
                head = line.split(":")[0]
                if line.lstrip().startswith(("--", "use ", "let ", "in ")) or "=" in head or "λ" in head:
                    continue
                m = DECLARED.match(line)
                if m and re.match(r"[a-z]", m.group(1)):
                    names.add(m.group(1))
    return names


def table():
    to = {n: snake(n) for n in declared() if "-" in n or re.search(r"[A-Z]", n)}
    return {n: OTHER.get(n, new) for n, new in to.items() if new != n}


def main():
    to = table()
    to.update(OTHER)
    word = re.compile(r"(?<![\w'≢≤<≡-])(" + "|".join(re.escape(n) for n in sorted(to, key=len, reverse=True)) + r")(?![\w≢≤<≡-])(?!'(?!s\b))")
    for path in files("crates/*/src/**/*.rt", "crates/*/specs/**/*.antt", "crates/*/proofs/**/*.antt"):
        with open(path, encoding="utf-8") as f:
            text = f.read()
        new = word.sub(lambda m: to[m.group(1)], text)
        if new != text:
            with open(path, "w", encoding="utf-8") as f:
                f.write(new)


if __name__ == "__main__":
    main()
