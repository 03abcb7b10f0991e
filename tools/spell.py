#!/usr/bin/env python3
"""Brings the repository's own definitions and lemmas to the library's spelling: words in snake case, by tools/spelling.tsv (old, new).

usage: python3 tools/spell.py    at the top of the repository, once, after port.py
"""

import os
import re

HERE = os.path.dirname(os.path.abspath(__file__))
TABLE = dict(line.rstrip("\n").split("\t") for line in open(os.path.join(HERE, "spelling.tsv"), encoding="utf-8"))
CAMEL = {old: new for old, new in TABLE.items() if re.search("[a-z0-9][A-Z]", old) and "-" not in old}


def pattern(table):
    names = "|".join(re.escape(n) for n in sorted(table, key=len, reverse=True))
    return re.compile(r"(?<![\w'?.-])(?:" + names + r")(?![\w'?-])")


# Behind a dot stands a field, a function's name in a path or a step of a proof: those keep their names but where the table makes a new spelling.
def fields(table):
    names = "|".join(re.escape(n) for n in sorted(table, key=len, reverse=True))
    return re.compile(r"(?<=\.)(?:" + names + r")(?![\w'?-])")


MADE = {old: new for old, new in TABLE.items() if new != old + "_lem"}
ALL, ALL_FIELDS, SOME, SOME_FIELDS = pattern(TABLE), fields(MADE), pattern(CAMEL), fields(CAMEL)


def turned(text, whole):
    for form in (ALL, ALL_FIELDS) if whole else (SOME, SOME_FIELDS):
        text = form.sub(lambda m: TABLE[m.group(0)], text)
    return text


def main():
    for folder, dirs, files in os.walk("crates"):
        dirs[:] = sorted(d for d in dirs if d != "out")
        for name in sorted(files):
            path = os.path.join(folder, name)
            if not name.endswith((".antt", ".rt", ".edit")):
                continue
            with open(path, encoding="utf-8") as f:
                text = f.read()
            whole = name.endswith(".antt") or (name.endswith(".edit") and re.search(r"(?m)^file: (specs|proofs)/", text))
            new = turned(text, whole)
            if new != text:
                with open(path, "w", encoding="utf-8") as f:
                    f.write(new)
    for path in ["README.md"] + [os.path.join("docs", n) for n in sorted(os.listdir("docs")) if n.endswith(".md") and n != "PORT.md"]:
        with open(path, encoding="utf-8") as f:
            text = f.read()
        new = re.sub(r"`[^`\n]*`", lambda m: turned(m.group(0), True), text)
        if new != text:
            with open(path, "w", encoding="utf-8") as f:
                f.write(new)


if __name__ == "__main__":
    main()
