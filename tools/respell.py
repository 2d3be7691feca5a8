#!/usr/bin/env python3
"""respell.py [FOLDER [TABLE]]: turns the names of definitions and lemmas below FOLDER (default: this repository).

The table is respell.tsv, or another one in this folder: arguments.tsv has arguments and names of modules, for a second
run. Each row is an old name, a tab, a new name. A name turns where it stands as a whole word: in .antt files, in .rt
files but for string literals, in the lines of must-fail edits, and between backticks in .md files. A row whose old name
is plain snake case may also be a Rust name, so it turns in .antt files alone; and a name behind or before a dot is a
part of a path, which a row that ends in _lem leaves as it is. The first run is for text that it has not turned yet.
"""

import os
import re
import sys

HERE = os.path.dirname(os.path.realpath(__file__))
ROOT = sys.argv[1] if len(sys.argv) > 1 else os.path.dirname(HERE)
TABLE = sys.argv[2] if len(sys.argv) > 2 else "respell.tsv"
with open(os.path.join(HERE, TABLE), encoding="utf-8") as f:
    ROWS = dict(line.rstrip("\n").split("\t") for line in f if line.strip())
WORD = re.compile(r"[^\s(){}\[\].;,:@\"«»`←|]+(?::(?=[^\s])[^\s(){}.;,@\"«»`]+)?")
STRING = re.compile(r'"(?:[^"\\\n]|\\.)*"')
SPAN = re.compile(r"`[^`\n]+`")


def plain(name):
    return re.fullmatch(r"[a-z][a-z0-9_]*", name) is not None


def turned(text, antt):
    def one(m):
        word = m[0]
        new = ROWS.get(word)
        if new is None or (plain(word) and not antt):
            return word
        behind = m.start() > 0 and text[m.start() - 1] == "."
        before = m.end() < len(text) and text[m.end()] == "."
        if (behind or before) and (new.endswith("_lem") or plain(word)):
            return word
        return new

    return WORD.sub(one, text)


def outside_strings(text):
    parts, at = [], 0
    for m in STRING.finditer(text):
        parts += [turned(text[at : m.start()], False), m[0]]
        at = m.end()
    return "".join(parts) + turned(text[at:], False)


def main():
    changed = 0
    for folder, dirs, files in os.walk(ROOT):
        dirs[:] = sorted(d for d in dirs if d not in (".git", "out", "target"))
        for name in sorted(files):
            path = os.path.join(folder, name)
            if os.path.islink(path) or not name.endswith((".antt", ".rt", ".md", ".edit")):
                continue
            with open(path, encoding="utf-8") as f:
                text = f.read()
            if name.endswith(".antt"):
                new = turned(text, True)
            elif name.endswith(".md"):
                new = SPAN.sub(lambda m: turned(m[0], True), text)
            else:
                new = outside_strings(text)
            if new != text:
                with open(path, "w", encoding="utf-8") as f:
                    f.write(new)
                changed += 1
    print(f"respell: {changed} files changed")


main()
