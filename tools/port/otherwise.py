#!/usr/bin/env python3
"""Names the choice that computes only the branch it takes: `if b then x otherwise y`. Today's gate keeps `if b then x else y` for the library's own.

usage: python3 tools/port/otherwise.py, at the top, after respell.py; a second run changes nothing.
"""
import os
import re

OLD, NEW = "if◌then◌else◌", "if◌then◌otherwise◌"
WORD = re.compile(r"(?<![\w'-])else(?![\w'-])")


def code(line):
    """A line of antt, its comment left alone."""
    at = re.search(r"(?:^|\s)--(?:\s|$)", line)
    at = at.start() if at else len(line)
    parts = re.split(r'("[^"]*")', line[:at])
    return "".join(p if p.startswith('"') else WORD.sub("otherwise", p) for p in parts) + line[at:]


for folder, dirs, names in os.walk("crates"):
    dirs[:] = [d for d in dirs if d != "out"]
    for name in names:
        path = os.path.join(folder, name)
        if not name.endswith((".antt", ".rt", ".edit")):
            continue
        with open(path, encoding="utf-8") as f:
            text = f.read()
        turned = text.replace(OLD, NEW)
        if name.endswith(".antt") and NEW in turned:
            turned = "\n".join(map(code, turned.split("\n")))
        elif name.endswith(".rt"):
            turned = re.sub(r"(?m)^(\s*(?:requires|ensures).*\bthen\b.*)$", lambda m: code(m[1]), turned)
        elif name.endswith(".edit"):
            turned = "\n".join(code(l) if re.match(r"(old|new):.*(λ|\bthen\b)", l) else l for l in turned.split("\n"))
        if turned != text:
            with open(path, "w", encoding="utf-8") as f:
                f.write(turned)
