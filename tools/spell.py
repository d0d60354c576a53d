#!/usr/bin/env python3
"""Gives the repository's own definitions and lemmas the spelling of today's Rattle, by the table spellings.tsv beside this script.

usage: tools/spell.py [ROOT]     rewrites below ROOT/crates the files of specs/ and proofs/, the clauses and `ghost use` items of src/, and the edits of must-fail/

A row has an old name, a tab and the new one, and may have a third column: the beginning of the paths, from ROOT, where it holds. Where several rows of a
name hold in a file, the longest beginning wins. A name is a whole word, as antt cuts words; in a dashed name each part that is a row turns too. Rust's own
functions, fields and constants are in snake case or capitals, so no row is one of them. Quoted text stays as it is.
The choice between two values, `if c then a else b` of model's Notation, has the name of an operator of std that groups otherwise, which a crate may not give to
its own: it is written `if c then a otherwise b`, in specs/, proofs/, clauses and edits.
It runs once, on what the port.py of the toolchain made: a lemma that would fall together with a definition's new name gets `_lem`.
"""

import os
import re
import sys

HERE = os.path.dirname(os.path.realpath(__file__))
WORD = re.compile(r'"(?:[^"\\\n]|\\.)*"|[^\s(){}.;,@"«»`:&\[\]<>!|+*/=]+')


def table():
    rows = []
    with open(os.path.join(HERE, "spellings.tsv"), encoding="utf-8") as f:
        for line in f:
            cells = line.rstrip("\n").split("\t")
            if len(cells) >= 2:
                rows.append((cells[0], cells[1], cells[2] if len(cells) > 2 else ""))
    return rows


def turned(text, names):
    def word(m):
        it = m[0]
        if it.startswith('"'):
            return it
        if it in names:
            return names[it]
        return "-".join(names.get(part, part) if re.search("[a-z0-9][A-Z]", part) else part for part in it.split("-"))

    return WORD.sub(word, text)


# In antt `else` is a word of that operator alone; in Rust's text it is one where `then` stands before it.
CHOICE = re.compile(r"if◌then◌else◌|(?<![\w-])else(?![\w-])")
CLAUSE = re.compile(r"(?<![\w-])then\s(?:(?!(?<![\w-])else(?![\w-])).)*?(?<![\w-])else(?![\w-])")


def with_otherwise(path, text):
    def one(m):
        return "if◌then◌otherwise◌" if m[0].startswith("if") else "otherwise"

    def code(line, sign):
        """The line without its comment, and that."""
        at = re.search(rf"(?<!\S){sign}", line)
        return (line[: at.start()], line[at.start() :]) if at else (line, "")

    made = []
    for line in text.split("\n"):
        if path.endswith(".antt"):
            it, rest = code(line, "--")
            made.append(CHOICE.sub(one, it) + rest)
        elif path.endswith(".edit"):
            made.append(CHOICE.sub(one, line) if re.match("(old|new): ", line) and re.search(r"\bthen\b|if◌then◌else◌", line) else line)
        else:
            it, rest = code(line, "//")
            it = it.replace("if◌then◌else◌", "if◌then◌otherwise◌")
            while re.search(r"\bthen\b", it) and CLAUSE.search(it):
                it = CLAUSE.sub(lambda m: m[0][:-4] + "otherwise", it)
            made.append(it + rest)
    return "\n".join(made)


def main(root):
    rows = table()
    for folder, dirs, files in os.walk(os.path.join(root, "crates")):
        dirs[:] = sorted(d for d in dirs if d != "out")
        for f in sorted(files):
            path = os.path.join(folder, f)
            if not f.endswith((".rt", ".antt", ".edit")):
                continue
            here = os.path.relpath(path, root)
            names, reach = {}, {}
            for old, new, where in rows:
                if here.startswith(where) and len(where) >= reach.get(old, 0):
                    names[old], reach[old] = new, len(where)
            with open(path, encoding="utf-8") as it:
                text = it.read()
            made = with_otherwise(path, turned(text, names))
            if made != text:
                with open(path, "w", encoding="utf-8") as it:
                    it.write(made)


if __name__ == "__main__":
    main(sys.argv[1] if len(sys.argv) > 1 else os.path.dirname(HERE))
