#!/usr/bin/env python3
"""Brings the repository's own definitions and lemmas to the spelling of today's Rattle.

usage: python3 tools/spelling.py [FOLDER]      (the repository; default: the one that this script is in)

Words are in snake case, types and modules in camel case. tools/spelling.tsv lists each name, old and new; a line
that ends in 'field' is a record's field or a constructor too, and is also turned behind a dot. The text of comments
and strings stays, and so do the names of functions of src/ and the names that Rattle makes.
"""

import os
import re
import sys

HERE = os.path.dirname(os.path.realpath(__file__))
TOKEN = re.compile(r"(?<![\w'·-])[A-Za-z_][\w'·]*(?:-[\w'·]+)*(?![\w'·-])")


def table():
    names, fields = {}, set()
    with open(os.path.join(HERE, "spelling.tsv"), encoding="utf-8") as f:
        for line in f:
            if line.startswith("#") or not line.strip():
                continue
            old, new, *kind = line.rstrip("\n").split("\t")
            names[old] = new
            if kind == ["field"]:
                fields.add(old)
    return names, fields


def kept(text, rust):
    """The stretches of comments and strings, which are left as they are."""
    if rust:
        form = r'//[^\n]*|"(?:\\.|[^"\\])*"|\'(?:\\.[^\']*|[^\'\\])\''
    else:
        form = r"(?m)(?:^|(?<=\s))--(?:\s[^\n]*)?$"
    return [m.span() for m in re.finditer(form, text)]


def turned(text, names, fields, rust):
    out, at = [], 0
    spans = kept(text, rust) + [(len(text), len(text))]
    for start, end in spans:
        if start < at:
            continue
        out.append(turned_part(text[at:start], names, fields))
        out.append(text[start:end])
        at = end
    return "".join(out)


def turned_part(text, names, fields):
    def one(m):
        old = m.group(0)
        if old not in names:
            return old
        line_start = text.rfind("\n", 0, m.start()) + 1
        line = text[line_start : m.start()].lstrip()
        imports = line.startswith(("use ", "ghost use ", "pub use ", "open "))
        if m.start() > 0 and text[m.start() - 1] == "." and not imports and old not in fields:
            return old
        return names[old]

    return TOKEN.sub(one, text)


def main(root):
    names, fields = table()
    count = 0
    for folder, dirs, files in os.walk(os.path.join(root, "crates")):
        dirs[:] = sorted(d for d in dirs if d != "out")
        for name in sorted(files):
            if not name.endswith((".rt", ".antt", ".edit")):
                continue
            path = os.path.join(folder, name)
            with open(path, encoding="utf-8") as f:
                before = f.read()
            after = turned(before, names, fields, name.endswith((".rt", ".edit")))
            if after != before:
                count += 1
                with open(path, "w", encoding="utf-8") as f:
                    f.write(after)
    print(f"spelling: {count} files changed, {len(names)} names in the table")


if __name__ == "__main__":
    main(sys.argv[1] if len(sys.argv) > 1 else os.path.dirname(HERE))
