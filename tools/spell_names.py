#!/usr/bin/env python3
"""Brings this repository's own definitions and lemmas to the spelling of today's Rattle.

usage: spell_names.py [--list]      at the top of the repository, once, after port.py

A definition, lemma, record field or name given to an import that is declared below specs/ or proofs/ gets snake case: each '-' between words, and each
capital within it, becomes '_' and a small letter. A type with a '-' gets camel case. A fact's name keeps its capital and its
dash ('All-weaker'), names of goals stay, and so do functions of src/, exported names, strings, inputs and outputs.
A name that would meet another one in some file stops the script before it writes. --list prints the table and writes nothing.
"""

import os
import re
import sys

BREAK = r'\s(){}.;,@"«»'
NAME = rf"[^{BREAK}]+"
TOKEN = re.compile(NAME)
# What Rattle names: the goals of a function, and the steps that a proof cites.
GOAL = re.compile(rf"^\s*(?:abbrev )?(?:pub )?({NAME}) : goal\.({NAME})", re.M)
DECLARED = re.compile(rf"^\s*(?:abbrev |unfoldable |pub |data |record |let |\| )*({NAME})(?: \{{[^{{}}\n]*\}}| \([^()\n]*\))* :(?= )", re.M)
ALIAS = re.compile(rf"\bas ({NAME})(?=[,}};]|$)", re.M)
LET = re.compile(rf"\blet ({NAME}) (?:: |= )")
# These meet a function of src/, a field of another record or a folder of proofs/ alone, which a clause or a projection keeps apart.
APART = {"priority-of", "row-priority", "priority-by", "used-rows", "row-parts", "cache-places", "queue-places", "page-rows", "test-length", "test-number", "may-stand"}

# Library words that came in under an older name, and a lemma that then needs another.
WORDS = [("option_map as mapSome", "option_map", "mapSome"), ("AllByRecursion as All", "AllByRecursion", "All"), ("is_ok as isOk", "is_ok", "isOk")]
LEMMAS = {os.path.join("crates", "trace", "proofs", "Hints.antt"): ("is_ok", "is_ok_map")}


def files():
    for folder, dirs, names in os.walk("crates"):
        dirs[:] = sorted(d for d in dirs if d not in ("out", "must-fail", "data"))
        for n in sorted(names):
            if n.endswith((".rt", ".antt")):
                yield os.path.join(folder, n)


def is_kebab(name):
    return re.fullmatch(r"[a-z][A-Za-z0-9]*(-[A-Za-z0-9]+)*'?", name) and ("-" in name or re.search(r"[a-z0-9][A-Z]", name))


def is_type(name):
    return re.fullmatch(r"[A-Z][A-Za-z0-9]*(-[a-z0-9]+)+", name)


def snake(name):
    name = name.replace("getD", "get_or")
    return re.sub(r"(?<=[a-z0-9])[A-Z]", lambda m: "_" + m[0].lower(), name).replace("-", "_")


def camel(name):
    return "".join(w[:1].upper() + w[1:] for w in name.split("-"))


def renamed(text, a, b):
    return TOKEN.sub(lambda m: b if m[0] == a else m[0], text)


def turned(word, table, behind):
    """The new spelling of a word, unless it stands behind a step of a proof."""
    if word not in table:
        return word
    if behind and behind in ("c", "w", "l", "goal", "g"):
        return word
    return table[word]


def main(listed):
    texts = {p: open(p, encoding="utf-8").read() for p in files()}
    table, goals = {}, set()
    before = dict(texts)
    for p in texts:
        if p in LEMMAS:
            a, b = LEMMAS[p]
            texts[p] = "".join(renamed(line, a, b) if " as " not in line else line for line in texts[p].splitlines(keepends=True))
        for whole, word, alias in WORDS:
            if whole in texts[p]:
                texts[p] = renamed(texts[p].replace(whole, word), alias, word)
    for p, t in texts.items():
        if p.endswith(".antt"):
            goals |= {m[1] for m in GOAL.finditer(t)}
    for p, t in texts.items():
        table.update((m[1], snake(m[1])) for m in ALIAS.finditer(t) if is_kebab(m[1]))
        if not p.endswith(".antt"):
            continue
        for m in list(DECLARED.finditer(t)) + list(LET.finditer(t)):
            n = m[1]
            if n in goals:
                continue
            if is_kebab(n):
                table[n] = snake(n)
            elif is_type(n) and re.search(rf"^(abbrev |unfoldable |pub )*(record|data) {re.escape(n)}\b|^(abbrev |unfoldable |pub )*{re.escape(n)} :.*Type 0$", t, re.M):
                table[n] = camel(n)
    if listed:
        for a, b in sorted(table.items()):
            print(a, b)
        print("goals that are declared too:", sorted(g for g in goals if any(re.search(rf"(?m)^\s*(?:pub )?{re.escape(g)} : (?!goal)", t) for t in texts.values())))
        return 0
    bad, new = 0, {}
    for p, t in texts.items():
        words = set(TOKEN.findall(t))
        for a, b in table.items():
            if a in words and b in words and a not in APART:
                print(f"{p}: {a} would meet {b}")
                bad += 1
    if bad:
        return 1
    for p, t in texts.items():
        out, at = [], 0
        for m in TOKEN.finditer(t):
            behind = None
            if m.start() and t[m.start() - 1] == ".":
                b = re.search(rf"({NAME})\.$", t[: m.start()][-80:])
                behind = b[1] if b else None
            out.append(t[at : m.start()])
            out.append(turned(m[0], table, behind))
            at = m.end()
        new[p] = "".join(out) + t[at:]
    for p, t in new.items():
        if t != before[p]:
            with open(p, "w", encoding="utf-8") as f:
                f.write(t)
    return 0


if __name__ == "__main__":
    raise SystemExit(main("--list" in sys.argv))
