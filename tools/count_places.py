"""Counts, in the sources of a commit, the places that docs/DESIGN-PASS.md speaks of.

Use: python3 tools/count_places.py [COMMIT] [-v]   (the working tree where no commit is given; -v prints each place)
"""
import re
import subprocess
import sys

# Of each point: what is looked for, and the pattern that a line of crates/*/src/ has where it stands.
POINTS = {
    "1 options, results, flags, numbers for kinds": {
        "constants that number kinds": r"^const (?!MOST)[A-Z]+: u8 = \d;|^pub const (?!MOST)[A-Z]+: u8 = \d;",
        "a kind or an order held as a number": r"\bkind: u8\b|Size\(u8\)",
        "a flag beside what it is about": r"\bis_open: bool\b",
        "a place, or a number past the end where there is none": r"fn seek_\w+\(.*-> usize",
    },
    "2 twins": {
        "types that repeat the fields of another": r"^pub struct (HintSet|Sizes|Priority|PageRowLine|HintRowLine|PagePlace) |^pub enum PagePlace",
        "functions that differ in a type or a size": r"fn (page_out|page_in|print_hints|print_pages|row_of)\((bytes|rt|rows|&self, key)",
        "private functions that say what a public one does": r"^    fn (started|used|clear|enter_some|over|many_used|used_rows|show|replace|add|enter|settle)\(|^fn (element|same_keys|count_one|enter_one)\b",
        "constants that say the same": r"const (MOST_HINTS|MOST_COUNT)\b",
    },
    "3 loops that count an index": {
        "for over a range": r"for \w+ in .*\.\.",
        "while": r"\bwhile\b",
    },
    "4 equality, order, copying, conversion, printing by hand": {
        "equality and order": r"fn same\(|fn precedes\(|^pub trait Order|self\.fifth == other\.fifth",
        "conversions": r"fn (mark_of|from_numbers|limit|decision_of)\(|fn new\((n: SizeNumbers|p: PriorityParts)\)|fn (numbers|parts)\(self\)",
        "a match that only passes on": r"None => None|Some\((\w+|\(_, \w+\))\) => Some\(|Ok\((\w+|\(\))\) => Ok\(|None => Priority::lowest|None => false,|None => other,|Err\(BadPriority\) => Priority",
        "fields copied one by one": r"^ +(\w+): (self|call|n|p)\.\1,",
    },
    "5 facts in three contracts or more, parameters that travel together": {
        "the lent rows are the same (lent)": r"(ensures|requires) lent \{",
        "as many or as long (len, rows, many)": r"ensures (len|rows|many|memory) \{.*(rows|places|bytes)",
        "the numbers lie within the rows (tidy)": r"(ensures|requires) tidy \{",
        "a buffer is a page long": r"requires .*≡ 256",
        "bytes with the place of their first word": r"bytes: &\[u8\], (count: u8, )?place: usize|place: usize, word: Word, bytes|requires .*2 \^ 64 \}|ghost within",
        "entries with the closed rows": r"closed: &('\w+ )?\[Row<HintNumbers>\]",
    },
    "6 lengths beside buffers, parallel arrays, arenas": {
        "lent rows or bytes in a struct": r"^ +(pub )?\w+: &'\w+ mut \[",
        "parallel slices in one signature": r"outcomes: &mut \[Result",
        "a buffer with a count": r"\[0u16; 5\]|^ +(pub )?count: u8,",
    },
    "7 switches on steps": {
        "a match on which call to make or test to run": r"match (access|self|call\.access|choice) \{",
    },
}


def sources(commit):
    """The sources by path."""
    if commit is None:
        names = subprocess.run(["git", "ls-files", "crates"], capture_output=True, text=True, check=True).stdout.split()
        read = lambda name: open(name, encoding="utf-8").read()
    else:
        names = subprocess.run(["git", "ls-tree", "-r", "--name-only", commit, "crates"], capture_output=True, text=True, check=True).stdout.split()
        read = lambda name: subprocess.run(["git", "show", f"{commit}:{name}"], capture_output=True, text=True, check=True).stdout
    return {n: read(n) for n in names if "/src/" in n and n.endswith(".rt") and not n.endswith("tests.rt")}


def proofs(commit):
    """How many proof files of functions there are, and how many lines all proofs have."""
    tree = ["git", "ls-files", "crates"] if commit is None else ["git", "ls-tree", "-r", "--name-only", commit, "crates"]
    names = [n for n in subprocess.run(tree, capture_output=True, text=True, check=True).stdout.split() if "/proofs/" in n]
    lines = 0
    for n in names:
        text = open(n, encoding="utf-8").read() if commit is None else subprocess.run(["git", "show", f"{commit}:{n}"], capture_output=True, text=True, check=True).stdout
        lines += text.count("\n")
    kinds = {k: sum(n.endswith(f"/{k}.antt") for n in names) for k in ("Answers", "Invariants")}
    return kinds, lines


def main():
    arguments = [a for a in sys.argv[1:] if a != "-v"]
    commit = arguments[0] if arguments else None
    texts = sources(commit)
    for point, searches in POINTS.items():
        print(point)
        for what, pattern in searches.items():
            found = [(n, i + 1, l.strip()) for n, t in texts.items() for i, l in enumerate(t.split("\n")) if re.search(pattern, l)]
            print(f"  {len(found):3} {what}")
            if "-v" in sys.argv:
                for n, i, l in found:
                    print(f"        {n}:{i}: {l}")
    kinds, lines = proofs(commit)
    print(f"8 proofs\n  {kinds['Answers']:3} files of answers\n  {kinds['Invariants']:3} files of invariants\n {lines:4} lines of proofs in all")


main()
