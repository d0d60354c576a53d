#!/usr/bin/env python3
"""Prints, for each crate, what the files of specs/ and proofs/ declared at the first commit of docs/PORT.md and declare under another name today: in Markdown.

usage: tools/renamed.py

A file's declarations are taken in their order, of both texts; where a declaration came in or went between, the two lists are set beside one another by what is
the same in them. Proofs of functions (proofs/F/) declare nothing that others name, and are left out.
"""

import difflib
import os
import re
import subprocess

ROOT = os.path.dirname(os.path.dirname(os.path.abspath(__file__)))


def shown(commit, path):
    return subprocess.run(["git", "show", f"{commit}:{path}"], cwd=ROOT, capture_output=True, text=True, check=True).stdout


def declared(text):
    """The names that a file declares, in its order."""
    found = []
    for line in text.split("\n"):
        line = line.strip()
        if line.startswith(("--", "let ")):
            continue
        line = re.sub(r"^(?:(?:pub|abbrev|unfoldable) )+", "", line)
        it = re.match(r"(?:record|data) (\S+)", line)
        if it:
            found.append(it[1])
        elif " : " in line:
            names = line[: line.index(" : ")]
            if not re.search(r'[(){}="λ,;.]', names):
                found += names.split()
    return found


def alike(name):
    """A name without what the spelling changed."""
    return re.sub(r"[-_·′'◌]|lem$", "", name.lower()).replace("getd", "getor")


def renamed(old, new):
    one, other = declared(old), declared(new)
    match = difflib.SequenceMatcher(None, [alike(it) for it in one], [alike(it) for it in other], autojunk=False)
    pairs = []
    for tag, i, j, k, l in match.get_opcodes():
        if tag in ("equal", "replace") and j - i == l - k:
            pairs += [(a, b) for a, b in zip(one[i:j], other[k:l]) if a != b]
        elif tag != "equal":
            pairs += [(it, "") for it in one[i:j]] + [("", it) for it in other[k:l]]
    return pairs


def main():
    with open(f"{ROOT}/docs/PORT.md", encoding="utf-8") as it:
        landed = it.readline().strip()
    paths = subprocess.run(["git", "ls-tree", "-r", "--name-only", landed, "crates"], cwd=ROOT, capture_output=True, text=True, check=True).stdout.split()
    crates = {}
    for path in paths:
        parts = path.split("/")
        if len(parts) != 4 and not (len(parts) > 3 and parts[2] == "specs") or not path.endswith(".antt"):
            continue
        if not os.path.isfile(f"{ROOT}/{path}"):
            crates.setdefault(parts[1], {}).setdefault(parts[2], {}).setdefault("files that are gone", []).append((path, ""))
            continue
        with open(f"{ROOT}/{path}", encoding="utf-8") as it:
            pairs = renamed(shown(landed, path), it.read())
        if pairs:
            crates.setdefault(parts[1], {}).setdefault(parts[2], {})[parts[-1][:-5]] = list(dict.fromkeys(pairs))
    for crate in sorted(crates):
        print(f"\n### {crate}\n")
        for folder in ("specs", "proofs"):
            for module, pairs in sorted(crates[crate].get(folder, {}).items()):
                told = [f"`{a}` → `{b}`" if a and b else f"`{a}` gone" if a else f"new `{b}`" for a, b in pairs]
                print(f"- {folder}/{module}: " + ", ".join(told))


if __name__ == "__main__":
    main()
