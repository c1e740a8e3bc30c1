#!/usr/bin/env python3
"""Respells the repository's own definitions, lemmas and labels by respell.tsv, as isWrite to is_write. Run once, at the top, right after the kit's port.py.

Turned are whole words of .antt and .rt files and of must-fail edits, comments included, but for text in quotes; and code spans of README.md and docs/.
"""

import os
import re
import sys

HERE = os.path.dirname(os.path.realpath(__file__))
WORD = re.compile(r'"(?:[^"\\\n]|\\.)*"|[^\s(){}\[\].;:,@"«»`]+')
SPAN = re.compile(r"`[^`\n]+`")


def main():
    root = os.path.dirname(HERE)
    with open(os.path.join(HERE, "respell.tsv"), encoding="utf-8") as rows:
        table = dict(row.rstrip("\n").split("\t") for row in rows)

    def turned(text):
        return WORD.sub(lambda m: table.get(m[0], m[0]), text)

    count = 0
    for folder, folders, files in os.walk(root):
        folders[:] = [f for f in folders if f not in ("out", "target", "tools") and not f.startswith(".")]
        for name in files:
            path = os.path.join(folder, name)
            if name.endswith((".antt", ".rt", ".edit")):
                turn = turned
            elif name.endswith(".md"):
                turn = lambda text: SPAN.sub(lambda m: turned(m[0]), text)
            else:
                continue
            with open(path, encoding="utf-8") as file:
                old = file.read()
            new = turn(old)
            if new != old:
                count += 1
                with open(path, "w", encoding="utf-8") as file:
                    file.write(new)
    print(f"{count} files respelled")


if __name__ == "__main__":
    sys.exit(main())
