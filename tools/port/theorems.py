#!/usr/bin/env python3
"""Moves theorems from specs/ to proofs/, in the crates that have must-fail edits of the definitions that these theorems rest on.

Today's gate takes an edit after which a file of specs/ has declarations that rest on a refused one for an edit that it cannot read; in proofs/ it is refused for the theorem that
fails. Statements stay as they are. Usage: python3 tools/port/theorems.py, at the top; a second run only brings paths up to date.
"""
import os
import re
import shutil

MOVED = {
    "lexer": ["laws"],
    "codegen": ["laws"],
    "frames": ["laws"],
    "framing": ["laws", "Lessons", "Paused", "Written"],
    "appended": ["laws"],
    "guarantees": ["laws", "Appended", "Demand"],
    "joining": ["laws", "Joined", "Reading"],
    "printing": ["laws", "Tidy"],
    "menu": ["laws", "Order"],
}
# A file beside a module of src/ that differs from it in case alone has another name there.
RENAMED = {("menu", "Order"): "Ordered"}


def read(path):
    with open(path, encoding="utf-8") as f:
        return f.read()


def write(path, text):
    with open(path, "w", encoding="utf-8") as f:
        f.write(text)


for crate, modules in MOVED.items():
    specs, proofs = f"crates/{crate}/specs", f"crates/{crate}/proofs"
    for module in modules:
        if not os.path.isfile(f"{specs}/{module}.antt"):
            continue
        os.makedirs(proofs, exist_ok=True)
        name = RENAMED.get((crate, module), module)
        shutil.move(f"{specs}/{module}.antt", f"{proofs}/{name}.antt")
        if os.path.isdir(f"{specs}/{module}"):
            shutil.move(f"{specs}/{module}", f"{proofs}/{module}")
        write(f"{specs}/Lib.antt", re.sub(rf"(?m)^pub mod {module}\n?", "", read(f"{specs}/Lib.antt")))
        root = read(f"{proofs}/Lib.antt") if os.path.isfile(f"{proofs}/Lib.antt") else "-- Theorems, and the laws that they rest on.\n"
        write(f"{proofs}/Lib.antt", root.rstrip("\n") + f"\npub mod {name}\n")

PATHS = [(re.compile(rf"\bRattle\.{crate}\.specs\.{module}(?=[.\s;])"), f"Rattle.{crate}.proofs.{RENAMED.get((crate, module), module)}") for crate, modules in MOVED.items() for module in modules]
for folder, dirs, names in os.walk("crates"):
    dirs[:] = [d for d in dirs if d != "out"]
    for name in names:
        if not name.endswith((".antt", ".rt", ".edit")):
            continue
        path = os.path.join(folder, name)
        text = turned = read(path)
        for old, new in PATHS:
            turned = old.sub(new, turned)
        if name.endswith(".edit"):
            crate = path.split(os.sep)[1]
            for module in MOVED.get(crate, ()):
                turned = re.sub(rf"(?m)^file: specs/{module}(?=[./])", f"file: proofs/{RENAMED.get((crate, module), module)}", turned)
        if turned != text:
            write(path, turned)
