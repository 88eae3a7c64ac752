#!/usr/bin/env python3
"""Respells the repository's own definitions and lemmas in snake case, and derives Copy on its plain types.

usage: python3 tools/respell.py    at the top of the repository, behind the kit's port.py; then rt fmt in each crate

Each lower-case name with a capital inside, as isActive, becomes is_active, in crates/*/src, specs and proofs, comments and
clauses alike; a part of a name between dashes is a name of its own, so isIn-mem becomes is_in-mem. Types, texts in quotes and
names of Rust stay. So do the constructors of the relation in crates/semantics, which have the names of the published rules.
The repository's own choice by a test is when .. then .. else .., since if .. then .. else .. is the library's.
Each type whose fields are numbers and such types derives Clone and Copy, and each crate's root asks for the tactics.
"""

import os
import re
import sys

NAME = re.compile(r"(?<![\w'·⇝])[^\W\d_A-Z][\w']*")
PUBLISHED = re.compile(r"^(en|ex|run)(S|C|SL|O|A|E)\d?0?N?$")
CHOICE = re.compile(r"(?<![\w'-])if(?=◌)|(?<![\w'.-])if(?=\s|$)")
TEXT = re.compile(r'("(?:[^"\\\n]|\\.)*")')


def snake(name):
    if not re.search(r"[a-z0-9][A-Z]", name) or PUBLISHED.match(name):
        return name
    name = re.sub(r"([a-z0-9])([A-Z])", r"\1_\2", name)
    return re.sub(r"([A-Z])([A-Z][a-z])", r"\1_\2", name).lower()


def outside_texts(text, turned):
    return "".join(p if p.startswith('"') else turned(p) for p in TEXT.split(text))


def names(text):
    return outside_texts(text, lambda p: NAME.sub(lambda m: snake(m.group()), p))


def choices(line):
    code, dashes, comment = line.partition("--")
    return outside_texts(code, lambda p: CHOICE.sub("when", p)) + dashes + comment


def is_clause(line):
    return re.match(r"\s*(ensures|requires|ghost)\b", line) is not None


def source(path, text):
    text = names(text)
    rust = path.endswith(".rt")
    text = "\n".join(choices(line) if not rust or is_clause(line) else line for line in text.split("\n"))
    if rust:
        text = text.replace("#[derive(Drop)]", "#[derive(Clone, Copy)]")
        if os.path.basename(path) in ("lib.rt", "main.rt") and "#![tactic(" not in text:
            lines = text.split("\n")
            at = next(i for i, line in enumerate(lines) if not line.startswith("//"))
            lines[at:at] = ["#![tactic(auto)]", ""]
            text = "\n".join(lines)
    return text


def edit(text):
    """Of a must-fail edit, whose names are turned by hand, the choices alone."""
    lines, antt = [], False
    for line in text.split("\n"):
        if line.startswith("file: "):
            antt = line.endswith(".antt")
        lines.append(choices(line) if antt and line.startswith(("old: ", "new: ")) else line)
    return "\n".join(lines)


def main():
    for folder, folders, files in os.walk("crates"):
        folders[:] = sorted(f for f in folders if f != "out")
        for name in sorted(files):
            path = os.path.join(folder, name)
            with open(path, encoding="utf-8", errors="surrogateescape") as f:
                old = f.read()
            if name.endswith((".rt", ".antt")):
                new = source(path, old)
            elif name.endswith(".edit"):
                new = edit(old)
            else:
                continue
            if new != old:
                with open(path, "w", encoding="utf-8", errors="surrogateescape") as f:
                    f.write(new)


if __name__ == "__main__":
    sys.exit(main())
