#!/usr/bin/env python3
# SPDX-License-Identifier: MIT OR Apache-2.0
"""Spells this repository's own definitions and lemmas in snake case, after the kit's port.py: run once, at the top.

A name is one of ours if specs/ or a file of lemmas right in proofs/ declares it: a definition, a constructor, a field, a
parameter of a module, or what a `where` has. Names of the kit and of goals keep their spelling. Two of ours that fall together
in one file are named, and the exit status is then 1.
"""

import glob
import re
import sys

# a lemma that joins the names of two functions, the outer call first, has a dash
JOINED = {"length-after"}
DECLARED = re.compile(r"^\s*\(?(?:abbrev |unfoldable )?(?:pub )?(?:data |record )?([\w'-]+) (?:\([^)]*\) |\{[^}]*\} )*:\s")
BOUND = re.compile(r"[({]([\w' -]+) : ")
NAME = re.compile(r"[\w'][\w'-]*")


def lemma_files():
    return glob.glob("crates/*/specs/*.antt") + glob.glob("crates/*/proofs/*.antt")


def ours():
    names = set()
    for path in lemma_files():
        module_open = False
        for line in open(path, encoding="utf-8"):
            if line.startswith(("use ", "--")):
                continue
            found = DECLARED.match(line)
            if found:
                names.add(found.group(1))
            module_open = module_open and line.startswith("    (") or line.startswith("module ")
            if module_open:
                for bound in BOUND.findall(line):
                    names.update(bound.split())
    return {name for name in names if "-" in name} - JOINED


def main():
    table = {name: name.replace("-", "_") for name in ours()}
    paths = glob.glob("crates/*/specs/**/*.antt", recursive=True) + glob.glob("crates/*/proofs/**/*.antt", recursive=True)
    paths += glob.glob("crates/*/src/**/*.rt", recursive=True)
    clash = 0
    for path in sorted(paths):
        text = open(path, encoding="utf-8").read()
        there = set(NAME.findall(text))
        for old in there & set(table):
            if table[old] in there and path in lemma_files():
                print(f"{path}: {old} and {table[old]} fall together", file=sys.stderr)
                clash += 1
        new = NAME.sub(lambda m: table.get(m.group(0), m.group(0)), text)
        if new != text:
            open(path, "w", encoding="utf-8").write(new)
    print(f"{len(table)} names, {clash} that fall together")
    return 1 if clash else 0


if __name__ == "__main__":
    sys.exit(main())
