#!/usr/bin/env python3
"""Respells the repository's own ghost names: definitions, lemmas and fields in snake case, types in camel case.

usage: python3 tools/respell.py      at the top of the repository, once, after the kit's own script

A name is one that a file of specs/, or a lemma file of proofs/, defines at its left margin, in a module of its own
there or below a where, or a field or case of a record or data. In a file that imports the same word from the kit's
library the word is left. Functions of src/, strings, inputs and outputs keep their names; in pages only what stands in
backticks is turned.
"""

import glob
import re

NAME = r"[A-Za-z][\w'-]*"
TOP = re.compile(rf"(?m)^(?:(?:pub|abbrev|unfoldable|record|data) )*({NAME})\s*[:({{]")
INNER = re.compile(rf"(?m)^(?:  | +(?:(?:pub|abbrev|unfoldable) )+)({NAME}) *[:({{]|^ +({NAME}) : ")
USE = re.compile(r"(?m)^\s*(?:ghost )?use ([\w.']+)\.\{([^}]*)\}")
STRING = re.compile(r'"(?:[^"\\\n]|\\.)*"')


def spelt(name):
    if name[0].isupper():
        return "".join(part[:1].upper() + part[1:] for part in name.split("-"))
    return name.replace("-", "_")


def own_names():
    own = {}
    for path in glob.glob("crates/*/specs/*.antt") + glob.glob("crates/*/proofs/*.antt"):
        with open(path, encoding="utf-8") as f:
            text = f.read()
        for pattern in (TOP, INNER):
            for match in pattern.finditer(text):
                name = next(filter(None, match.groups()))
                if "-" in name:
                    own.setdefault(name, set()).add(path)
    return own


def library_names(text, crates):
    taken = set()
    for path, names in USE.findall(text):
        parts = path.split(".")
        if parts[0] == "Rattle" and len(parts) > 1 and parts[1] in crates:
            continue
        taken.update(n.strip().split(" as ")[-1] for n in names.split(","))
    return taken


def turned(text, names):
    if not names:
        return text
    words = "|".join(sorted(map(re.escape, names), key=len, reverse=True))
    return re.sub(rf"(?<![\w'-])(?:{words})(?![\w'-])", lambda m: spelt(m.group(0)), text)


def outside_strings(text, names):
    parts, end = [], 0
    for m in STRING.finditer(text):
        parts += [turned(text[end : m.start()], names), m.group(0)]
        end = m.end()
    return "".join(parts + [turned(text[end:], names)])


def main():
    own = own_names()
    crates = {p.split("/")[1] for p in glob.glob("crates/*/src")}
    files = glob.glob("crates/*/specs/**/*.antt", recursive=True) + glob.glob("crates/*/proofs/**/*.antt", recursive=True)
    files += glob.glob("crates/*/src/**/*.rt", recursive=True) + glob.glob("crates/*/must-fail/*.edit")
    pages = glob.glob("docs/*.md") + ["README.md"]
    for path in sorted(files) + sorted(pages):
        with open(path, encoding="utf-8") as f:
            text = f.read()
        names = {n for n in own if path in own[n]} | (set(own) - library_names(text, crates))
        if path.endswith(".md"):
            new = re.sub(r"`[^`\n]+`", lambda m: turned(m.group(0), names), text)
        else:
            new = outside_strings(text, names)
        if new != text:
            with open(path, "w", encoding="utf-8") as f:
                f.write(new)
    print(f"{len(own)} names")


main()
