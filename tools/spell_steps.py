#!/usr/bin/env python3
"""Brings the names of goals and steps in proof files to today's spelling: what the source calls same_keys is same_keys there too.

usage: spell_steps.py [CRATE..]      at the top of the repository, after spell_names.py
"""

import os
import re
import sys

BREAK = r'\s(){}.;,@"«»'
TOKEN = re.compile(rf"[^{BREAK}]+")
USED = re.compile(r"^use [^{\n]*\{([^}]*)\}", re.M)


def identifiers():
    found = set()
    for folder, dirs, names in os.walk("crates"):
        dirs[:] = [d for d in dirs if d != "out"]
        for n in names:
            if n.endswith(".rt"):
                with open(os.path.join(folder, n), encoding="utf-8") as f:
                    found |= set(re.findall(r"\b[A-Za-z][A-Za-z0-9]*(?:_[A-Za-z0-9]+)+\b", f.read()))
    # Rattle's own words for steps and goals.
    return found | {"in_ok", "in_err", "in_default", "type_inv", "from_residual", "from_be_bytes", "offset_bounds", "slice_bounds", "overflow_add", "overflow_sub", "overflow_mul", "nonzero_div"}


def spelled(word, known):
    # '--item' is what stands for the variable _item.
    parts = [p.replace("\0", "_") for p in re.sub(r"(^|-)-", r"\1\0", word).split("-")]
    out, i = [], 0
    while i < len(parts):
        for j in range(len(parts), i, -1):
            if "_".join(parts[i:j]) in known or j == i + 1:
                out.append("_".join(parts[i:j]))
                i = j
                break
    return "-".join(out)


def main(crates):
    known = identifiers()
    for c in crates or sorted(os.listdir("crates")):
        for folder, dirs, names in os.walk(os.path.join("crates", c, "proofs")):
            for n in names:
                if n not in ("Answers.antt", "Invariants.antt", "Choices.antt", "Proof.antt"):
                    continue
                p = os.path.join(folder, n)
                with open(p, encoding="utf-8") as f:
                    t = f.read()
                skip = {w for m in USED.finditer(t) for w in re.split(r"[,\s]+|\bas\b", m[1])}
                new = TOKEN.sub(lambda m: spelled(m[0], known) if re.search(r"\w.*-|-.*\w", m[0]) and m[0] not in skip else m[0], t)
                if new != t:
                    with open(p, "w", encoding="utf-8") as f:
                        f.write(new)
                    print(p)


if __name__ == "__main__":
    main(sys.argv[1:])
