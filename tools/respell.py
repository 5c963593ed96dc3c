#!/usr/bin/env python3
"""Respells the names of definitions and lemmas that are written with dashes.

    tools/respell.py [FOLDER]      FOLDER: a checkout, the current folder where it is left out

Words come into snake case (first-past: first_past), types into camel case
(Same-meaning: SameMeaning). A name is respelled where specs/ or a lemma file of
proofs/ declares it, or a `let` or an `as` of a proof; names of the library and
names that the prover makes stay as they are. Strings stay; in comments only what
stands in backticks is respelled. It ends with an error, and changes nothing, where
a new name is there already in a file that has the old one.
"""

import re
import sys
from pathlib import Path

WORD = r"[A-Za-z][A-Za-z0-9_'₂≡]*(?:-[A-Za-z0-9_'₂≡]+)+"
TOKEN = re.compile(r"[A-Za-z0-9_'₂≡≢-]+")
DECLARED = re.compile(r"^\s*(?:abbrev\s+|unfoldable\s+|pub\s+|record\s+|data\s+)*(" + WORD + r")\s*(?::|\(|\{)")
BOUND = [re.compile(r"\blet\s+(" + WORD + r")\s*[:=]"), re.compile(r"\bas\s+(" + WORD + r")")]
PIECES = {
    ".antt": re.compile(r'("(?:\\.|[^"\\])*")|((?:^|(?<=\s))--(?=\s).*)'),
    ".rt": re.compile(r'("(?:\\.|[^"\\])*")|(//.*)'),
}

# A name that would be one of the library's gets another; and the names that a field or function of src/ has already, whose
# value the definition tells.
OTHERWISE = {"bool-byte": "byte_of_bool"}
SHARED = {"second-kind", "others-named", "u32-at", "u16-at"}


def code_of(line, suffix):
    return PIECES[suffix].sub(" ", line)


def new_name(old):
    if old in OTHERWISE:
        return OTHERWISE[old]
    if old[0].isupper():
        return "".join(part[0].upper() + part[1:] for part in old.split("-"))
    return old.replace("-", "_")


def declared(files):
    names = set()
    for path in files:
        made = path.name in ("Answers.antt", "Invariants.antt")
        for line in path.read_text().splitlines():
            code = code_of(line, path.suffix)
            if path.suffix == ".antt" and not made:
                found = DECLARED.match(code)
                if found and ":" in code:
                    names.add(found.group(1))
            for bound in BOUND:
                names.update(bound.findall(code))
    return names


def respell(text, suffix, names):
    turn = lambda code: TOKEN.sub(lambda t: new_name(t.group()) if t.group() in names else t.group(), code)
    quoted = lambda comment: re.sub(r"`[^`]*`", lambda m: turn(m.group()), comment)
    lines = []
    for line in text.split("\n"):
        out, at = "", 0
        for piece in PIECES[suffix].finditer(line):
            out += turn(line[at : piece.start()])
            out += piece.group(1) if piece.group(1) else quoted(piece.group(2))
            at = piece.end()
        lines.append(out + turn(line[at:]))
    return "\n".join(lines)


def main():
    top = Path(sys.argv[1] if len(sys.argv) > 1 else ".")
    files = [
        path
        for part in ("specs", "proofs", "src")
        for path in sorted(top.glob(f"crates/*/{part}/**/*"))
        if path.suffix in PIECES
    ]
    names = declared(files)
    clashes = []
    for path in files:
        tokens = set(TOKEN.findall("\n".join(code_of(line, path.suffix) for line in path.read_text().splitlines())))
        for name in sorted((names & tokens) - SHARED):
            if new_name(name) in tokens:
                clashes.append(f"{path}: {name} and {new_name(name)}")
    if clashes:
        sys.exit("\n".join(clashes))
    for path in files:
        text = path.read_text()
        changed = respell(text, path.suffix, names)
        if changed != text:
            path.write_text(changed)
    print(f"{len(names)} names respelled")


main()
