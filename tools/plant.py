#!/usr/bin/env python3
"""Plants bugs in a crate's code, one at a time, and sees whether the prover refuses each.

    python3 tools/plant.py TREE CRATE [COUNT [SEED]]

TREE is a scratch copy of the repository (its files are changed and put back), CRATE a crate of it. Bugs are drawn at random from
all places where one can be planted: another comparison or operator, a number one more or less, exchanged arguments, fields or
variants, a dropped statement. A bug that does not compile is drawn again. Prints a line for each bug and one with the counts:
refused because a fact failed, refused because a proof file no longer fits the code, and still proved.
"""
import pathlib
import random
import re
import subprocess
import sys

OPERATORS = {
    " < ": " <= ", " <= ": " < ", " > ": " >= ", " >= ": " > ", " == ": " != ", " != ": " == ",
    " + ": " - ", " - ": " + ", " * ": " + ", " / ": " * ", " % ": " / ", " ^ ": " | ", " & ": " | ", " << ": " >> ", " >> ": " << ",
    " && ": " || ", " || ": " && ", "true": "false", "false": "true",
    "saturating_sub": "saturating_add", "saturating_add": "saturating_sub", "wrapping_add": "wrapping_sub", "wrapping_sub": "wrapping_add",
    ".encipher(": ".decipher(", ".decipher(": ".encipher(", "encipher(": "decipher(", "is_ok()": "is_err()", "rotate_right": "rotate_left",
    ".min(": ".max(", ".max(": ".min(", ".add(": ".multiply(", "(0..": "(1..", "first": "second", "current": "next", "next": "current",
}
NOT_CODE = re.compile(r"^\s*(//|ghost |use |pub use |mod |pub mod |#|requires|ensures|pub (const )?fn |fn |pub (struct|enum|trait)|impl|$)")


def places(text):
    """(start, end, replacement) of each bug that can be planted."""
    variants = {}
    for owner, name in re.findall(r"\b([A-Z]\w+)::([A-Z]\w+)\b(?![(<])", text):
        variants.setdefault(owner, set()).add(name)
    found, at, clause = [], 0, False
    for line in text.splitlines(keepends=True):
        code = line.split("//")[0]
        if not NOT_CODE.match(line):
            for old, new in OPERATORS.items():
                for m in re.finditer(re.escape(old), code):
                    if old.isalpha() and re.match(r"\w", code[m.end():m.end() + 1] or " "):
                        continue
                    found.append((at + m.start(), at + m.end(), new))
            for m in re.finditer(r"(?<![\w.])(\d+|0x[0-9a-fA-F]+)(?=\b|u)", code):
                number = int(m.group(), 0)
                for other in (number + 1, number - 1):
                    if other >= 0:
                        found.append((at + m.start(), at + m.end(), hex(other) if m.group().startswith("0x") else str(other)))
            for m in re.finditer(r"\((&?(?:mut )?[\w.]+), (&?(?:mut )?[\w.]+)", code):
                found.append((at + m.start(), at + m.end(), f"({m.group(2)}, {m.group(1)}"))
            for m in re.finditer(r"\b([A-Z]\w+)::([A-Z]\w+)\b(?![(<])", code):
                for other in sorted(variants.get(m.group(1), set()) - {m.group(2)}):
                    found.append((at + m.start(2), at + m.end(2), other))
            if re.match(r"^\s+[\w*][\w.\[\]*]*( = |\(|\.\w+\()[^{]*;$", code.rstrip()) and not re.match(r"^\s*(let|return|break)", code):
                found.append((at, at + len(line.rstrip("\n")), ""))
        at += len(line)
    return found


def check(tree, crate):
    run = subprocess.run(["rt", "check"], cwd=tree / "crates" / crate, capture_output=True, text=True)
    return run.returncode, run.stdout + run.stderr


def verdict(code, log, crate):
    if code == 0:
        return "PROVED"
    lines = [l for l in log.splitlines() if "error" in l or "no proof" in l or "not proved" in l]
    first = next((l for l in lines if "error" in l), lines[0] if lines else "")
    if re.search(r"^(\./)?src/\S+: error", log, re.MULTILINE) or "syntax" in first or "rt: usage" in log:
        return "no compile"
    if re.search(r"has no field|can be named|is not declared|not asked for|no step", first):
        return "unfit"
    return "refused"


def main():
    tree, crate = pathlib.Path(sys.argv[1]), sys.argv[2]
    count = int(sys.argv[3]) if len(sys.argv) > 3 else 12
    draw = random.Random(f"{sys.argv[4] if len(sys.argv) > 4 else 1} {crate}")
    files = [p for p in sorted((tree / "crates" / crate / "src").rglob("*.rt")) if p.name != "tests.rt"]
    bugs = [(p, *place) for p in files for place in places(p.read_text())]
    tally = {"refused": 0, "unfit": 0, "PROVED": 0}
    draw.shuffle(bugs)
    for path, start, end, new in bugs:
        if sum(tally.values()) >= count:
            break
        text = path.read_text()
        path.write_text(text[:start] + new + text[end:])
        try:
            code, log = check(tree, crate)
        finally:
            path.write_text(text)
        said = verdict(code, log, crate)
        if said == "no compile":
            continue
        tally[said] += 1
        row = text.count("\n", 0, start) + 1
        line = text[text.rfind("\n", 0, start) + 1:text.find("\n", end)].strip()
        print(f"{said:8} {path.name}:{row} `{text[start:end].strip()}` -> `{new.strip()}`  in  {line[:90]}", flush=True)
    print(f"{crate}: planted {sum(tally.values())}, refused {tally['refused']}, proof unfit {tally['unfit']}, still proved {tally['PROVED']}", flush=True)


main()
