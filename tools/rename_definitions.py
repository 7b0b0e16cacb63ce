#!/usr/bin/env python3
"""Spells the repository's own definitions and lemmas as the library does: words in snake case.

usage: tools/rename_definitions.py [--list] [FOLDER]

Run it once, behind port.py, at the top of the repository. It goes over the .antt files, the clauses and comments of the .rt files,
the must-fail edits and the documents. A name is turned if a file of specs/ or proofs/ declares it and it is no type and no module: camel case and
dashes become underscores. Functions, types, strings, inputs and outputs of the code keep their names. --list prints the table, and writes nothing.
"""

import os
import re
import sys

NAME = r"[^\s(){}.;,@\"«»:]+"
DECLARED = re.compile(rf"(?m)^ *(?:\w+ )*?({NAME})(?: \{{[^{{}}\n]*\}}| \([^()\n]*\))* :(?= |$)")
LOCAL = re.compile(r"(?m)^ *let ")
GOAL = re.compile(rf"(?m)^({NAME}) : (?:tie|goal)\.")
WORD = re.compile(r"(?<![^\s(){}.;,@\"«»:\x60'\[\]/])[A-Za-z](?:[\w'-]*[\w'])?(?![^\s(){}.;,@\"«»:\x60'\[\]/?!])")
COMMENT = re.compile(r"--[^\n]*")
# What stays in code of Rust: strings and comments, but for code spans and words in camel case.
RUST = re.compile(r'"(?:[^"\\\n]|\\.)*"|//[^\n]*')
SPAN = re.compile(r"\x60[^\x60\n]*\x60")
TEXTS = (".antt", ".rt", ".edit", ".md")
# A lemma whose name would meet that of a definition gets _lem. Beside those that `table` finds: lemmas that meet a definition of another crate or of
# the library, and lemmas that port.py turned to what is now a definition's name, each with its file.
MEETS = {"bit-or", "body-of", "entry-of", "in-row", "in-table", "entry-cost"}
TURNED = {
    "crates/safety/specs/Edge.antt": "on_edge",
    "crates/safety/specs/RefineMove.antt": "read_table",
    "crates/semantics/specs/Refusals.antt": "goes_on",
}


def files(top):
    for folder, dirs, names in os.walk(top):
        dirs[:] = sorted(d for d in dirs if d not in ("out", ".git", "target", "data"))
        for name in sorted(names):
            if name.endswith(TEXTS):
                yield os.path.join(folder, name)


def read(path):
    with open(path, encoding="utf-8") as f:
        return f.read()


def turned(name):
    if name[0].isupper():
        return name
    words = re.sub(r"(?<=[a-z0-9])(?=[A-Z])|(?<=[A-Z])(?=[A-Z][a-z])", "_", name)
    return words.lower().replace("-", "_")


def declared(top):
    """The names that files of specs/ and proofs/ declare, without the answers to goals, which Rattle names."""
    found = set()
    for path in files(os.path.join(top, "crates")):
        if not path.endswith(".antt"):
            continue
        text = COMMENT.sub("", read(path))
        goals = set(GOAL.findall(text))
        of_function = re.search(r"/proofs/[^/]+/", path)
        for line in DECLARED.finditer(text):
            name = line.group(1)
            if line.group(0).lstrip().startswith("let ") or name in goals:
                continue
            if of_function and (name.endswith("-spec") or name.startswith(("invariant-", "decreases-", "unfold-"))):
                continue
            if WORD.fullmatch(name) and turned(name) != name:
                found.add(name)
    return found


def table(top):
    """Old names to new ones."""
    names = sorted(declared(top))
    definitions = {turned(n) for n in names if "-" not in n}
    met = {n for n in names if "-" in n and (turned(n) in definitions or n in MEETS)}
    return {n: turned(n) + ("_lem" if n in met else "") for n in names}


def word(names, of_function, text):
    """Turns a word. Behind a dot in the proof of a function it is a step, which has the name of a function of the code."""

    def turn(m):
        new = names.get(m[0], m[0])
        label = of_function and text[max(0, m.start() - 1) : m.start()] == "."
        return new.removesuffix("_lem") if label and new != m[0] else new

    return turn


def turn_code(names, text, of_function=False):
    return WORD.sub(word(names, of_function, text), text)


def turn_prose(names, text):
    """Code spans whole; else words in camel case alone, since a word with a dash may be one of the language."""
    camel = {n: v for n, v in names.items() if "-" not in n}
    text = SPAN.sub(lambda m: turn_code(names, m[0]), text)
    return turn_code(camel, text)


def parts(pattern, text, inside, outside):
    """The text with `inside` applied to what the pattern finds, and `outside` to the rest."""
    made, at = "", 0
    for m in pattern.finditer(text):
        made += outside(text[at : m.start()]) + inside(m[0])
        at = m.end()
    return made + outside(text[at:])


def turn_file(names, path, text):
    code = lambda t: turn_code(names, t, re.search(r"/proofs/[^/]+/", path))
    prose = lambda t: turn_prose(names, t)
    if path.endswith(".antt"):
        return parts(COMMENT, text, prose, code)
    if path.endswith(".rt"):
        return parts(RUST, text, lambda t: t if t[0] == '"' else prose(t), code)
    if path.endswith(".edit"):
        rust = "file: src/" in text
        lines = text.split("\n")
        return "\n".join(prose(l) if l.startswith("#") else l if rust and '"' in l else code(l) for l in lines)
    return prose(text)


def main(argv):
    top = next((a for a in argv if not a.startswith("--")), ".")
    names = table(top)
    if "--list" in argv:
        print("\n".join(f"{old} {names[old]}" for old in names))
        return
    for path in files(top):
        old = read(path)
        new = old
        for file, name in TURNED.items():
            if path.endswith(file):
                new = re.sub(rf"(?<![\w.-]){name}(?![\w-])", name + "_lem", new)
        new = turn_file(names, path, new)
        if new != old:
            with open(path, "w", encoding="utf-8") as f:
                f.write(new)


if __name__ == "__main__":
    main(sys.argv[1:])
