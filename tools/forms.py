#!/usr/bin/env python3
"""Counts, in the sources of a tree, the places where an older form of the language may stand.

usage: tools/forms.py [TREE] [POINT]

For each point of docs/DESIGN-PASS.md it prints how many places its patterns find, and with POINT each place. A place that was
looked at and kept has a line comment '// Stays: REASON' beside it. Tables of constants are left out.
"""
import re
import sys
from difflib import SequenceMatcher
from pathlib import Path

TABLES = {"sbox.rt", "inv_sbox.rt", "round_table.rt", "inv_round_table.rt"}

PATTERNS = {
    "1": [  # results within results, sentinels, an end beside other variants, numbers and flags for kinds
        r"\bOk\((Ok|Err)\(",
        r"^\s+End,",
        r"\bsize: 0,",
        r"^\s+(Refused|Faulted|Reported) \{.*u8|^\s+Other\(u8\)",
        r"fn named\(code: u8\)",
        r"\bback: bool\b",
    ],
    "3": [  # loops that count an index or a number by hand
        r"^\s*for [ijk] in .*\.\.",
        r"^\s*while (?!let\b)",
        r"= \w+\.saturating_add\(1\);",
    ],
    "4": [  # conversions, comparisons and printing by hand
        r"let (number|at|place|depth|mark|phase) = \w+(\.\w+)*(\.number\(\)|\.sector|\.depth|\.mark\(\));",
        r"pub fn (word|message|named|verb_of|mode_of|cipher_of|is)\(",
        r"Err\(\w+\) => Err\(|None => None\b|Ok\(\(\)\) => Ok\(\(\)\)",
        r"\.min\(\d{3,}\) as |\.min\(\d+\)\.max\(",
        r"let greater = ",
        r"if is\(word, ",
        r"reason: Reason::\w+,",
    ],
    "6": [  # buffers with a length beside them
        r"numbers: \[u32; 64\]",
        r"buffer: &mut \[u8\]\) -> Result<usize",
        r"let mut places = \[",
        r"\[0; MOST\]",
    ],
    "7": [  # which step to run, by a value that a caller gives
        r"match (direction|operation|case\.mode|job\.mode|job\.cipher|mode|cipher)\b \{",
        r"if back\b",
    ],
}


def sources(tree):
    return sorted(p for p in Path(tree).glob("crates/*/src/**/*.rt") if p.name not in TABLES)


def code(line):
    return line.split("//")[0]


def found(tree, point):
    patterns = [re.compile(p) for p in PATTERNS[point]]
    for path in sources(tree):
        for number, line in enumerate(path.read_text().splitlines(), 1):
            if any(p.search(code(line)) for p in patterns):
                yield path.relative_to(tree), number, line.strip()


ITEM = re.compile(r"(\s*)(?:pub(?:\(crate\))? )?(?:final )?(fn|impl|enum|struct)\b(.*)")

# the traits of the repository; what each type gives of one of std's is its own
OWN = re.compile(r"\b(Word|BlockRing|Modulus|BlockCipher|WideMode|TweakMode|SectorDevice)\b.* for ")

# how alike two items are to be called twins
LEAST = 0.8


def items(tree):
    """Functions of three lines or more in their bodies, impls of our traits, enums and structs, each with the words of its text."""
    for path in sources(tree):
        lines = path.read_text().splitlines()
        for start, line in enumerate(lines):
            match = ITEM.match(line)
            if not match or line.endswith("{}"):
                continue
            indent, kind, rest = match.groups()
            end = next((n for n in range(start, len(lines)) if lines[n].startswith(indent + "}")), None)
            inside = lines[start + 1 : end]
            if kind == "fn":
                opened = next((n for n, l in enumerate(lines[start:end]) if l == indent + "{" or l.endswith((" {", ";"))), None)
                if opened is None or lines[start + opened].endswith(";"):
                    continue
                inside = inside[opened:]
            if kind == "impl" and not OWN.search(rest):
                continue
            text = [code(l).strip() for l in inside if code(l).strip()]
            if len(text) >= (2 if kind in ("enum", "struct") else 3):
                words = re.findall(r"\w+|[^\w\s]", " ".join(text))
                yield kind, f"{path.relative_to(tree)}:{start + 1}: {line.strip()}", words


def alike(a, b):
    if min(len(a), len(b)) < 0.6 * max(len(a), len(b)):
        return False
    match = SequenceMatcher(None, a, b, autojunk=False)
    return match.real_quick_ratio() >= LEAST and match.quick_ratio() >= LEAST and match.ratio() >= LEAST


def twins(tree):
    """The items that are like one that stands before them."""
    seen = []
    for kind, name, words in items(tree):
        twin = next((other for k, other, w in seen if k == kind and alike(w, words)), None)
        if twin:
            yield f"{name}  is like  {twin}"
        seen.append((kind, name, words))


def facts(tree):
    """The facts that three or more contracts of a crate require, and the parameters that three or more private functions of a file share."""
    requires = {}
    parameters = {}
    for path in sources(tree):
        text = path.read_text()
        crate = path.relative_to(tree).parts[1]
        for line in text.splitlines():
            match = re.match(r"\s+requires (?:\w+ )?\{(.*)\}\s*$", line)
            if match:
                requires.setdefault((crate, re.sub(r"\.(old|now)\b", "", match.group(1)).strip()), []).append(path.name)
        for match in re.finditer(r"^(?:pub\(crate\) )?fn \w+(?:<.*?>)?\(([^)]*)\)", text, re.M):
            names = [n for n in re.findall(r"(\w+): ", match.group(1)) if n != "rt"]
            for pair in {(a, b) for i, a in enumerate(names) for b in names[i + 1:]}:
                parameters.setdefault((crate, path.name, pair), []).append(match.start())
    for (crate, fact), places in sorted(requires.items()):
        if len(places) > 2:
            yield f"{crate}: {fact}: {len(places)}"
    for (crate, name, pair), places in sorted(parameters.items()):
        if len(places) > 2:
            yield f"{crate}/{name}: {', '.join(pair)}: {len(places)}"


def answers(tree):
    return sum(
        len(re.findall(r"^pub [\w-]+ : goal\.", p.read_text(), re.M))
        for p in Path(tree).glob("crates/*/proofs/**/Answers.antt")
    )


def lemmas(tree):
    return sum(
        len(re.findall(r"^\s*(?:pub|unfoldable pub|abbrev pub) [^\s:]+ : ", p.read_text(), re.M))
        for p in Path(tree).glob("crates/*/proofs/**/*.antt")
        if p.name not in ("Answers.antt", "Invariants.antt")
    )


def main():
    tree = sys.argv[1] if len(sys.argv) > 1 else "."
    wanted = sys.argv[2] if len(sys.argv) > 2 else None
    for point in PATTERNS:
        places = list(found(tree, point))
        print(f"{point}: {len(places)}")
        if wanted == point:
            for path, number, line in places:
                print(f"  {path}:{number}: {line}")
    pairs = list(twins(tree))
    print(f"2: {len(pairs)}")
    if wanted == "2":
        for line in pairs:
            print(f"  {line}")
    shared = list(facts(tree))
    print(f"5: {len(shared)}")
    if wanted == "5":
        for line in shared:
            print(f"  {line}")
    print(f"8: {answers(tree)} answers, {lemmas(tree)} lemmas")
    stays = [
        f"{p.relative_to(tree)}:{n}: {line.strip()}"
        for p in sources(tree)
        for n, line in enumerate(p.read_text().splitlines(), 1)
        if "// Stays:" in line
    ]
    print(f"kept with a reason beside: {len(stays)}")
    if wanted == "kept":
        for line in stays:
            print(f"  {line}")


main()
