#!/usr/bin/env python3
"""Brings this repository's own definitions and lemmas to today's spelling: words in snake case, a dash between two names alone.

usage: tools/respell.py [FOLDER]    in FOLDER or, without one, at the top of this checkout; once, after port.py

respelled.tsv beside it has each name that changes, old and new. Names change in specs/ and proofs/, and in the ghost lines and
clauses of src/. Functions of src/, exported names, strings and the text of comments stay; a name in a comment changes in backticks.
"""

import pathlib
import re
import sys

HERE = pathlib.Path(__file__).resolve().parent
TABLE = dict(line.split("\t") for line in (HERE / "respelled.tsv").read_text(encoding="utf-8").splitlines())
NAME = re.compile(r"""[^\s(){}\[\];,.:"`]+""")
CLAUSE = re.compile(r"\s*(pub )?(requires|ensures|ghost)\b")
BACKTICKS = re.compile(r"`[^`]*`")


def names(text):
    return NAME.sub(lambda m: TABLE.get(m.group(), m.group()), text)


def ticked(text):
    return BACKTICKS.sub(lambda m: names(m.group()), text)


def antt(text):
    lines = []
    for line in text.split("\n"):
        code, dashes, comment = line.partition("-- ") if not line.startswith("--") else ("", "", line)
        lines.append(names(code) + dashes + ticked(comment))
    return "\n".join(lines)


def rt(text):
    lines, depth = [], 0
    for line in text.split("\n"):
        if line.lstrip().startswith("//"):
            lines.append(ticked(line))
        elif depth > 0 or CLAUSE.match(line):
            depth = max(0, depth + line.count("{") - line.count("}"))
            lines.append(names(line))
        else:
            lines.append(line)
    return "\n".join(lines)


def main():
    top = pathlib.Path(sys.argv[1]) if len(sys.argv) > 1 else HERE.parent
    changed = 0
    for path in sorted(top.glob("crates/*/**/*")):
        turn = {".antt": antt, ".rt": rt}.get(path.suffix)
        if turn is None or "out" in path.relative_to(top).parts:
            continue
        text = path.read_text(encoding="utf-8")
        new = turn(text)
        if new != text:
            path.write_text(new, encoding="utf-8")
            changed += 1
    print(f"respell: {changed} files changed")


if __name__ == "__main__":
    main()
