#!/usr/bin/env python3
"""Respells the repository's own definitions and lemmas: words in snake case, types in camel case.

usage: python3 tools/respell.py            at the top of the repository, once, behind port.py
       python3 tools/respell.py --list     prints the names, old and new, and changes nothing

Names are read off the declarations of specs/ and proofs/. A part of a name that a dash joins is respelled by itself,
and one that begins with a capital is a type's name and stays. Code, strings, inputs and outputs keep their names: no
name of src/ has this form.
"""

import os
import re
import sys

DECLARED = re.compile(
    r"^\s*(?:(?:abbrev|unfoldable|pub|data|record|ruleset|syntax)\s+)*([A-Za-z][\w'₀-₉-]*)\s*(?:[:({]|where\b|=)"
)
TOKEN = re.compile(r"(?<![\w'₀-₉-])[A-Za-z][\w'₀-₉-]*")
SEPARATE = {
    "first_of": "front_of",
    "Counted-as": "CountedAs",
    "Found_at": "FoundAt",
    "Found-at": "FoundAt",
    "Read-of": "ReadOf",
    "Ready-to-act": "ReadyToAct",
    "below-64K": "below-64k",
    "capitalOf": "capital_of",
}
# lemmas that would take the name of a definition beside them
BESIDE = {
    "crates/soundness/proofs/EntryChanges.antt": {"goes_above": "goes-above"},
    "crates/hex/proofs/Scanning.antt": {"no_lines": "no-lines"},
    "crates/lonecore/proofs/CommandCount.antt": {"one_each": "one-each"},
}


def files(root, ends):
    for folder, dirs, names in os.walk(root):
        dirs[:] = sorted(d for d in dirs if d not in ("out", "target", ".git"))
        for name in sorted(names):
            if name.endswith(ends):
                yield os.path.join(folder, name)


def snake(part):
    if part[:1].isupper():
        return part
    if part == "getD":
        return "get_or"
    part = re.sub(r"([a-z0-9])([A-Z])", r"\1_\2", part)
    part = re.sub(r"([A-Z])([A-Z][a-z])", r"\1_\2", part)
    return part.lower()


def respelled(name):
    if name in SEPARATE:
        return SEPARATE[name]
    return "-".join(snake(part) for part in name.split("-"))


def names(root):
    found = {"capitalOf": SEPARATE["capitalOf"]}
    for path in files(os.path.join(root, "crates"), ".antt"):
        with open(path, encoding="utf-8") as f:
            for line in f:
                m = DECLARED.match(line)
                if m and respelled(m.group(1)) != m.group(1):
                    found[m.group(1)] = respelled(m.group(1))
    return found


def turn(text, new):
    return TOKEN.sub(lambda m: new.get(m.group(0), m.group(0)), text)


def main():
    new = names(".")
    if "--list" in sys.argv[1:]:
        for old in sorted(new):
            print(old, new[old])
        return
    count = 0
    for path in list(files("crates", (".rt", ".antt"))) + list(files(".", ".md")):
        with open(path, encoding="utf-8") as f:
            text = f.read()
        said = turn(turn(text, BESIDE.get(os.path.normpath(path), {})), new)
        if said != text:
            count += 1
            with open(path, "w", encoding="utf-8") as f:
                f.write(said)
    print(f"respell: {len(new)} names, {count} files")


if __name__ == "__main__":
    main()
