#!/usr/bin/env python3
"""Brings what port.py leaves to today's spelling, once, right after it: python3 tools/port/respell.py, at the top.

1. The modules specs/contracts are specs/promises: Rattle now makes modules of its own below specs/contracts.
2. A definition, lemma, field or constructor of a crate's specs/ or proofs/ in camel case is in snake case: `tableLeast` is `table_least`.
   Types and modules keep theirs. A name that a kit's library declares, or that another name of the repository has already, stays and is listed.
   Must-fail edits follow in the same words.
"""
import os
import re
import sys

TOP = os.getcwd()
TOKEN = re.compile(r"[^\s(){}.;,`@\"«»\[\]\\]+")
WORDS = re.compile(r"(?:(?:abbrev|unfoldable|pub)\s+)*([^\s:(){}=,.;|λ]+(?:\s+[^\s:(){}=,.;|λ]+)*)(?:\s+\([^)]*\)|\s+\{[^}]*\})*\s+:\s")
CAMEL = re.compile(r"[a-z0-9][A-Z]")


def files(*endings):
    for folder, dirs, names in os.walk(os.path.join(TOP, "crates")):
        dirs[:] = [d for d in dirs if d != "out"]
        for name in sorted(names):
            if name.endswith(endings):
                yield os.path.join(folder, name)


def read(path):
    with open(path, encoding="utf-8") as f:
        return f.read()


def write(path, text):
    with open(path, "w", encoding="utf-8") as f:
        f.write(text)


def move_contracts():
    for crate in sorted(os.listdir(os.path.join(TOP, "crates"))):
        specs = os.path.join(TOP, "crates", crate, "specs")
        if os.path.isfile(os.path.join(specs, "contracts.antt")):
            os.rename(os.path.join(specs, "contracts.antt"), os.path.join(specs, "promises.antt"))
            os.rename(os.path.join(specs, "contracts"), os.path.join(specs, "promises"))
            root = os.path.join(specs, "Lib.antt")
            write(root, re.sub(r"(?m)^pub mod contracts$", "pub mod promises", read(root)))
    for path in files(".rt", ".antt", ".edit"):
        text = read(path)
        turned = re.sub(r"\bspecs\.contracts\b", "specs.promises", text).replace("specs/contracts/", "specs/promises/")
        if turned != text:
            write(path, turned)


def snake(part):
    part = re.sub(r"([a-z0-9])([A-Z])", lambda m: m[1] + "_" + m[2], part)
    return part.lower()


def respelled(name):
    parts = name.split("-")
    if not parts[0] or not parts[0][0].islower():
        return name
    return "-".join(snake(p) if p and p[0].islower() and CAMEL.search(p) else p for p in parts)


def main():
    move_contracts()
    declared, imported, tokens, functions = set(), set(), set(), set()
    for path in files(".antt", ".rt"):
        text = read(path)
        if path.endswith(".rt"):
            functions.update(re.findall(r"\bfn (\w+)", text))
        for line in text.splitlines():
            if line.lstrip().startswith(("--", "//")):
                continue
            tokens.update(TOKEN.findall(line))
            found = re.match(r"\s*(?:ghost )?(?:pub )?use ([\w.]+)\.\{(.*)\}", line)
            if found and not re.match(r"Rattle\.(%s)\b" % "|".join(CRATES), found[1]):
                imported.update(w for it in found[2].split(",") for w in it.split(" as ")[:1] for w in [w.strip()])
            if path.endswith(".antt"):
                found = re.match(r"\s*" + WORDS.pattern, line)
                if found:
                    declared.update(found[1].split())
    table, left = {}, []
    for name in sorted(declared):
        new = respelled(name)
        if new == name:
            continue
        if name in imported or new in tokens or new in table.values() or new in RESERVED:
            left.append((name, new))
            # As the guides name a definition that says what a function returns.
            new = new + "_lem" if new in functions else OTHER.get(name)
            if not new or new in tokens or new in table.values():
                continue
        table[name] = new
    for path in files(".antt", ".rt", ".edit"):
        text = read(path)
        turned = TOKEN.sub(lambda m: table.get(m[0], m[0]), text)
        if turned != text:
            write(path, turned)
    print(f"{len(table)} names turned")
    for name, new in left:
        print("falls together:", name, new, "->", table.get(name, "stays"))


CRATES = sorted(os.listdir(os.path.join(TOP, "crates")))
RESERVED = {"ground", "assumption", "record", "data", "open", "search", "omega"}
# Names that would fall together with another, by a name of their own.
OTHER = {
    "aBlock": "a_block_shown",
    "aCall": "a_call_shown",
    "fixedNumber": "number_of_fixed",
    "flagWord": "word_of_flag",
    "goesOn": "going_on",
    "kindFits": "fits_kind",
    "noLine": "without_line",
    "ofArray": "for_array",
    "ofLength": "has_length",
    "oneClass": "single_class",
    "oneLine": "single_line",
    "pastTheEnd": "beyond_the_end",
    "putBoth": "both_put",
    "recordOf": "record_from",
    "setLocal": "local_set",
    "textAt": "text_from",
    "tooLong": "exceeds_length",
    "towardZero": "truncated",
    "unlessNot": "not_unless",
    "wrongType": "type_wrong",
}

if __name__ == "__main__":
    sys.exit(main())
