#!/usr/bin/env python3
"""Turns the repository's own definitions and lemmas to snake case: `addSix` and `add-six` become `add_six`.

usage: tools/respell.py      at the top of the repository, once, after the port's own script

A definition or lemma is a name that a file of specs/ or proofs/ declares, but for the answers in a
function's own folder, whose names Rattle makes. Types and modules begin with a capital and stay, and so
do the fields of Rattle's own records, which stand behind a dot that follows no module. The names are turned wherever a whole
name stands in an .antt file, and in the clauses, the lines `ghost use` and the comments of an .rt file;
Rust's own text, strings and file names stay. A lemma that would have a definition's name gets `_lem`
after it. The edits in must-fail/ are turned too.
"""

import os
import re
import sys

NAME = r"[\w\-'·+]"
DECLARED = re.compile(r"^\s*(?:(?:abbrev|unfoldable|pub|opaque)\s+)*([^\s:(){}]+)\s*:(?!:)")
# Two lemmas had a definition's name in snake case before this: the file, the definition, the lemma, and where the lemma stands.
BEFORE = [
    ("crates/herdbook/proofs/Once.antt", "inOrder", "in_order", r"(?m)^in_order(?= :| )|(?<== )in_order(?= )"),
    ("crates/run/proofs/Strides.antt", "branchRow", "branch_row", r"(?m)(?<=^  )branch_row(?= :| d )|(?<== )branch_row(?= d )"),
]
# A field of a record of the repository's own, which stands behind a dot.
FIELDS = {"mid-bank"}
MADE = ("Proof.antt", "Answers.antt", "Invariants.antt")


def files(ending):
    for folder, dirs, names in os.walk("crates"):
        dirs[:] = sorted(d for d in dirs if d != "out")
        for name in sorted(names):
            if name.endswith(ending):
                yield os.path.join(folder, name)


def text_of(path):
    with open(path, encoding="utf-8") as f:
        return f.read()


def snake(name):
    return re.sub(r"(?<=[a-z0-9])([A-Z]+)", lambda m: "_" + m.group(1).lower(), name).replace("-", "_")


def declared():
    found, of_specs = set(), set()
    for path in files(".antt"):
        if os.path.basename(path) in MADE and "/proofs/" in path:
            continue
        for line in text_of(path).splitlines():
            m = DECLARED.match(line)
            if m and m.group(1)[0].islower():
                if "/specs/" in path:
                    of_specs.add(m.group(1))
                if snake(m.group(1)) != m.group(1):
                    found.add(m.group(1))
    return sorted(found), of_specs


def in_source(text, turn):
    """The clauses, the `ghost use` lines and the comments of an .rt file, turned."""
    out = []
    for line in text.splitlines(keepends=True):
        clause = re.match(r"\s*(ghost|requires|ensures|//|pub ghost|[^\"]*[≡≤≢↔])", line)
        out.append(turn(line) if clause else line)
    return "".join(out)


def others_of(text):
    """The names that a file takes from the library: they stay, though a crate here may have one that is spelt alike."""
    own = {f"Rattle.{c}." for c in os.listdir("crates")}
    taken = set()
    for module, items in re.findall(r"(?m)^use ([^\s{]+)\.\{([^}]*)\}", text):
        if not any((module + ".").startswith(o) for o in own):
            taken |= {item.strip() for item in items.split(",")}
    return taken


def new_names(names, of_specs):
    new = {n: snake(n) for n in names}
    defined = {snake(n) for n in of_specs} | {s for n, s in new.items() if "-" not in n}
    for n, s in new.items():
        if "-" in n and n not in of_specs and s in defined:
            new[n] = s + "_lem"
    return new


def main():
    for path, definition, lemma, there in BEFORE:
        text = text_of(path)
        if definition in text:
            with open(path, "w", encoding="utf-8") as f:
                f.write(re.sub(there, lemma + "_lem", text))
    names, of_specs = declared()
    new = new_names(names, of_specs)
    any_name = re.compile(rf"(?<!{NAME})(?:{'|'.join(re.escape(n) for n in sorted(names, key=len, reverse=True))})(?!{NAME})")

    def turn(part):
        modules = set(re.findall(r"(?m)^use \S+ as (\S+)$", part))
        others = others_of(part)

        def one(m):
            if m.group(0) in others:
                return m.group(0)
            before = re.search(r"([\w\-'·]+)\.\Z", part[: m.start()][-80:])
            behind = before and before.group(1) not in modules and m.group(0) not in FIELDS
            return m.group(0) if behind else new[m.group(0)]

        return any_name.sub(one, part)

    for ending in (".antt", ".edit", ".rt"):
        for path in files(ending):
            text = text_of(path)
            after = in_source(text, turn) if ending == ".rt" else turn(text)
            if after != text:
                with open(path, "w", encoding="utf-8") as f:
                    f.write(after)
    print(f"{len(names)} names turned, {sum(s.endswith('_lem') for s in new.values())} of them with _lem")


if __name__ == "__main__":
    sys.exit(main())
