#!/usr/bin/env python3
"""Brings the repository's own definitions and lemmas to one spelling: words in snake case.

usage: tools/respell.py [--list]    at the top of the repository, once, right after port.py

A name that specs/ or proofs/ declare (a definition, a lemma, a field, a constructor, a variable of a
signature) is respelled wherever it stands in crates/: `bookingCode` is `booking_code`, `read-at` is
`read_at`. Types and modules stay in camel case. Functions of src/, exported names, strings, inputs and
outputs keep their names. In comments and pages a name is respelled between backticks alone; in
must-fail edits as in the file that they edit. A name whose new spelling is another name's already is
listed, and --list only lists.
"""
import os
import re
import sys

DECLARED = re.compile(r"^\s*(?:\|?\s*)(?:(?:abbrev|unfoldable|pub)\s+)*([^\s(){}\[\];,.:=]+)((?:\s+[^\s(){}\[\];,.:=]+)*)\s+:\s")
BOUND = re.compile(r"[({λ]\s*((?:[^\s(){}\[\];,.:=]+\s+)+):\s")
NAME = re.compile(r"(?<![\w'′-])([a-z][\w'′]*(?:-[\w'′]+)*)(?![\w'′-])")
ODD = re.compile(r"^[a-z][\w'′]*(-[\w'′]+)*$")
# A lemma that would have a definition's name.
LEMMAS = {"by-mark", "links-of", "open-end", "open-ends", "over-node", "sums-saved", "row-at"}
# The same, where port.py had respelled the lemma already.
LEMMAS_THERE = {"in_bounds", "heard_all"}


def snake(name):
    if name in LEMMAS or name in LEMMAS_THERE:
        return name.replace("-", "_") + "_lem"
    name = re.sub(r"(?<=[a-z0-9])([A-Z])", lambda m: "_" + m.group(1).lower(), name)
    return name.replace("-", "_")


def is_odd(name):
    return bool(ODD.match(name)) and snake(name) != name


def files(*ends):
    for folder, folders, names in os.walk("crates"):
        if "out" in folders:
            folders.remove("out")
        for name in sorted(names):
            if name.endswith(ends):
                yield os.path.join(folder, name)


def is_proof(path):
    parts = path.split("/")
    return parts[2] == "proofs" and len(parts) > 4


def declared():
    names = set()
    for path in files(".antt"):
        if is_proof(path):
            continue
        for line in open(path, encoding="utf-8"):
            if line.lstrip().startswith("--"):
                continue
            found = DECLARED.match(line)
            if found:
                names.add(found.group(1))
                names.update(found.group(2).split())
            for group in BOUND.findall(line):
                names.update(group.split())
    return {n for n in names if is_odd(n)} - LEMMAS_THERE


def respell_code(text, names, dotted_too):
    def one(m):
        name = m.group(1)
        if name not in names:
            return name
        if not dotted_too and m.start() and text[m.start() - 1] == ".":
            return name
        return snake(name)
    return NAME.sub(one, text)


def respell_quoted(text, names):
    return re.sub(r"`[^`\n]*`", lambda m: respell_code(m.group(0), names, True), text)


def respell_line(line, mark, names, dotted_too):
    at = line.find(mark)
    while at > 0 and not line[at - 1].isspace():
        at = line.find(mark, at + 1)
    if at < 0:
        return respell_code(line, names, dotted_too)
    return respell_code(line[:at], names, dotted_too) + respell_quoted(line[at:], names)


def respell(path, names):
    text = open(path, encoding="utf-8").read()
    if path.endswith(".md"):
        new = respell_quoted(text, names)
    elif path.endswith(".edit"):
        new = "".join(respell_line(l, "\0", names, True) for l in text.splitlines(True))
    else:
        mark = "//" if path.endswith(".rt") else "--"
        dotted_too = not is_proof(path)
        if mark == "--":
            names = names | LEMMAS_THERE
        new = "".join(respell_line(l, mark, names, dotted_too) for l in text.splitlines(True))
    if new != text:
        open(path, "w", encoding="utf-8").write(new)


def main():
    names = declared()
    spelled = {}
    for name in sorted(names):
        spelled.setdefault(snake(name), []).append(name)
    everywhere = set()
    for path in files(".antt", ".rt"):
        everywhere.update(NAME.findall(open(path, encoding="utf-8").read()))
    for new, old in sorted(spelled.items()):
        if len(old) > 1 or new in everywhere:
            print(f"falls together: {' '.join(old)} -> {new}" + (" (stands already)" if new in everywhere else ""))
    print(f"{len(names)} names")
    if "--list" in sys.argv:
        return
    pages = ["README.md", "tests/README.md"] + ["docs/" + f for f in sorted(os.listdir("docs")) if f.endswith(".md") and f != "PORT.md"]
    for path in list(files(".antt", ".rt", ".edit")) + pages:
        respell(path, names)


main()
