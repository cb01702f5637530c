#!/usr/bin/env python3
"""Spells the names of this repository's definitions, lemmas, fields and variables in snake case, in specs/, proofs/ and the clauses of src/.

usage: python3 tools/snake_case.py [--list]     at the top of the repository, once, after the kit's port.py

    timesX-clmul -> times_x_clmul        bytesOf -> bytes_of        x′ -> x'

A name is turned where the repository declares it: as a definition, a lemma, a field, an argument or a variable. Names of the
kit's library and those that the check makes for its goals stay, and so do strings, functions of src/ and types. With --list it
only prints each name beside its new spelling, and the names that would fall together.
"""

import collections
import os
import re
import sys

NAME = r"[^\s(){}.;,@\"«»\[\]\\:λ=⌜⌝]+"
TOKEN = re.compile(r"--[^\n]*|//[^\n]*|\"(?:[^\"\\]|\\.)*\"|b?'(?:[^'\\]|\\.)'|«[^»]*»|" + NAME)
MODIFIER = r"(?:(?:pub|abbrev|unfoldable|private|data|instance)\s+)*"
DECLARED = re.compile(r"^\s*" + MODIFIER + r"(" + NAME + r")\s*:(?!=)(.*)$")
GOAL = re.compile(r"^\s*(goal|need|given)\.")
BINDER = re.compile(r"[({]\s*((?:" + NAME + r"\s+)+):")
LET = re.compile(r"(?:\blet|\bin|;)\s+(" + NAME + r")\s*[:=]")
LAMBDA = re.compile(r"[λ∀]\s*((?:" + NAME + r"\s*)+)\.")
# Where two names would fall together, or the kit's script has turned one into what the other becomes.
APART = {
    "bit-xor": "bit_xor_mul",
    "count-of": "sectors_counted",
    "of-records": "of_two_records",
    "of-tasks": "of_two_tasks",
    "cipher-named": "cipher_is_named",
    "mode-named": "mode_is_named",
    "direction-named": "direction_is_named",
    "size_fits": "size_fit",
    "key_fits": "key_fit",
}
OLD = re.compile(r"^[a-z\u0370-\u03ff][\w′'₀-₉\-]*$")


def turns(name):
    return bool(OLD.match(name)) and bool(re.search(r"[A-Z\-′]", name)) and not re.match(r"^(0x|x[0-9A-F]{2}$)", name)


def snake(name):
    if name in APART:
        return APART[name]
    name = name.replace("′", "'").replace("-", "_")
    name = re.sub(r"(?<=[a-z0-9₀-₉])([A-Z])", lambda m: "_" + m[1].lower(), name)
    return re.sub(r"_+", "_", re.sub(r"[A-Z]", lambda m: m[0].lower(), name))


def files(top, ends):
    for folder, dirs, names in os.walk(top):
        dirs[:] = sorted(d for d in dirs if d not in ("out", ".git"))
        for n in sorted(names):
            if n.endswith(ends):
                yield os.path.join(folder, n)


def read(path):
    with open(path, encoding="utf-8") as f:
        return f.read()


def bare(text):
    return re.sub(r"--[^\n]*", "", text)


def library_uses(text):
    """The names that a file imports from the kit's library."""
    found = set()
    for m in re.finditer(r"use\s+(Rattle\.std|Rattle\.core|mathlib|native|lib|Prim|base|borrow)[\w.·'-]*\.\{([^}]*)\}", text):
        found |= {w.split()[0] for w in m[2].split(",") if w.strip()}
    return found


def gather():
    """The names that the repository declares, and the goals that each file answers."""
    declared, variables, goals = set(), set(), {}
    for path in files("crates", (".antt", ".rt")):
        for m in re.finditer(r"\bas ([a-z]\w*)\s*[,}]", read(path)):
            declared.add(m[1])
    for path in files("crates", (".antt",)):
        text = bare(read(path))
        answered = set()
        for line in text.splitlines():
            m = DECLARED.match(line)
            if m and GOAL.match(m[2]):
                answered.add(m[1])
            elif m and "invariant-" not in m[1] and "decreases-" not in m[1]:
                declared.add(m[1])
        goals[path] = answered
        for m in BINDER.finditer(text):
            variables |= set(m[1].split())
        for m in LET.finditer(text):
            variables.add(m[1])
        for m in LAMBDA.finditer(text):
            variables |= set(m[1].split())
        # the arguments of a definition by clauses
        for line in text.splitlines():
            m = re.match(r"^\s*([a-z][^\s]*)((?:\s+[^\s=]+)+)\s+=(\s|$)", line)
            if m:
                variables |= {w.strip("(){}") for w in m[2].split()}
    return {n for n in declared if turns(n)}, {n for n in variables if turns(n)}, goals


def main():
    declared, variables, goals = gather()
    own = declared | variables
    if "--list" in sys.argv:
        heads = collections.defaultdict(set)
        for n in sorted(own):
            heads[snake(n)].add(n)
            print(n, "->", snake(n), "" if n in declared else "(variable)")
        every = set()
        for path in files("crates", (".antt",)):
            every |= set(TOKEN.findall(bare(read(path))))
        print("\nfall together:")
        for new, olds in sorted(heads.items()):
            if len(olds) > 1 or new in every:
                print(" ", new, "<-", " ".join(sorted(olds)), "(stands already)" if new in every else "")
        return
    clauses = set()
    for path in files("crates", (".rt",)):
        clauses |= set(re.findall(r"(?:ensures|requires)\s+(\w+)\s*\{", read(path)))
    for path in files("crates", (".antt", ".rt")):
        text = read(path)
        kept = library_uses(text) | goals.get(path, set())
        source = path.endswith(".rt")

        def word(m, kept=kept, source=source, text=text):
            w = m[0]
            if w.startswith(("--", "//")):
                return re.sub(r"(?<![\w\-])[a-z][\w\-]*(?![\w\-])", lambda k: snake(k[0]) if k[0] in declared and re.search("[A-Z]", k[0]) else "bit_xor" if k[0] == "bitXor" else k[0], w)
            if w[0] in "\"'«b" and re.match(r"b?['\"]", w):
                return w
            if source and not re.search("[A-Z]", w) and w not in declared:
                return w
            if w in APART and not source:
                return APART[w]
            field = m.start() > 0 and text[m.start() - 1] == "."
            if w in kept and not field:
                return w
            if w in own and (not field or w in declared or snake(w) in clauses):
                return snake(w)
            if turns(w) and snake(w) in clauses and "-" in w:
                return snake(w)
            return w

        new = TOKEN.sub(word, text)
        if new != text:
            with open(path, "w", encoding="utf-8") as f:
                f.write(new)
            print(path)


if __name__ == "__main__":
    main()
