#!/usr/bin/env python3
"""Brings the repository's own names in specs/, proofs/ and clauses to snake case: `aheadFor` becomes `ahead_for`, `point-next` becomes
`point_next`. Run once, at the top of the repository, after the kit's port.py.

Own names are those that a file of specs/ or proofs/ declares: definitions, lemmas, fields, constructors, variables. Names that the proof
kit makes (goals and steps, below proofs/FUNCTION/), names that a file imports from a library, text in quotes and the code itself stay.
A lemma that would get the name of a definition ends in `_lem`. Prints each name, old and new, and each file where a new name stood before."""
import os
import re
import sys

WORD = re.compile(r"(?<![\w'◌·-])[A-Za-z][A-Za-z0-9_']*(?:-[A-Za-z0-9_'ℕ]+)*(?![\w'◌·-])")
DECLARED = re.compile(r"\s*(?:\| )?(?:(?:pub|abbrev|unfoldable|record|data) )*([^:(){}]+?)(?: [({].*?)? : ")
USE = re.compile(r"\s*(?:pub )?(?:ghost )?use (\S+?)\.\{(.*)\}")


def snake(name):
    words = re.sub(r"(?<=[a-z0-9])([A-Z])", lambda m: "_" + m.group(1).lower(), name)
    return words.replace("-", "_")


# A variable that would get the name of a definition beside it.
APART = {"ahead-of": "ahead_here"}


def odd(name):
    return name[0].islower() and snake(name) != name and WORD.fullmatch(name) is not None


def files(root):
    for folder, below, names in os.walk(os.path.join(root, "crates")):
        below[:] = sorted(d for d in below if d not in ("out", "must-fail"))
        for name in sorted(names):
            if name.endswith((".antt", ".rt")):
                yield os.path.join(folder, name)


def of_function(path):
    """Whether the file stands in the folder of a function's proof."""
    return "/proofs/" in path and not os.path.basename(os.path.dirname(path)) == "proofs"


def imported(text):
    """The names that the file has from libraries."""
    return {n.split(" as ")[-1].strip() for m in map(USE.match, text.split("\n")) if m and not re.match(r"Rattle\.(?!std\.)", m.group(1)) for n in m.group(2).split(",")}


def declared(path, text):
    names, made = set(), set()
    for line in text.split("\n"):
        line = line.split(" --")[0]
        if line.startswith("--") or USE.match(line):
            continue
        at = DECLARED.match(line)
        if at:
            kit = of_function(path) and re.match(r"(tie|goal|needs)\b|\{M : Type 1\} → statement", line[at.end():])
            (made if kit else names).update(at.group(1).split())
        for at in re.finditer(r"[({]([^(){}:]+?) : ", line):
            names.update(at.group(1).split())
        for at in re.finditer(r"\blet ([^\s:=]+) *(?::|=)|λ ([^.(]+)\.", line):
            names.update((at.group(1) or at.group(2)).split())
    return names, made


def main(root):
    texts = {p: open(p, encoding="utf-8").read() for p in files(root)}
    everywhere, here, made = set(), {}, {}
    for path, text in texts.items():
        if not path.endswith(".antt"):
            continue
        names, made[path] = declared(path, text)
        names = {n for n in names if odd(n)}
        if of_function(path):
            here[path] = names
        else:
            everywhere |= names
    whole = {n for p in texts if p.endswith(".antt") and not of_function(p) for n in declared(p, texts[p])[0]}
    taken = {n for n in whole if not odd(n)} | {snake(n) for n in whole if odd(n) and "-" not in n}

    def new_name(name):
        return APART.get(name) or snake(name) + ("_lem" if "-" in name and snake(name) in taken else "")

    told = {}
    for path, text in texts.items():
        own = (everywhere | here.get(path, set())) - imported(text) - made.get(path, set())
        stood = set(WORD.findall(text))
        left = {new_name(n) for n in own if n in stood and new_name(n) in stood}
        for name in sorted(left):
            print(f"stood before: {path}: {name}", file=sys.stderr)

        def turned(m):
            name = m.group(0)
            before = text[max(0, m.start() - 5):m.start()]
            if name not in own or before.endswith(("tie.", "goal.", "·")) or text[m.start() - 1:m.start()] == '"':
                return name
            told[name] = new_name(name)
            return told[name]

        new = WORD.sub(turned, text)
        if new != text:
            with open(path, "w", encoding="utf-8") as f:
                f.write(new)
    for name in sorted(told):
        print(name, told[name])


main(sys.argv[1] if len(sys.argv) > 1 else ".")
