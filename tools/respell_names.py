#!/usr/bin/env python3
"""Respells the names of this repository's definitions and lemmas: words in snake case, types and facts in camel case.

usage: python3 tools/respell_names.py [FOLDER]    (default: the current folder; it has crates/)

Reads what specs/ and proofs/ declare, and rewrites each name of those that has a dash, in the .antt files and in the
clauses of the .rt files. Comments, strings and the names that Rattle makes (goals and steps of code) stay as they are.
It prints each old and new name, and the new names that stood in a file before: these may fall together.
"""

import os
import re
import sys

# A character of a name; a dot ends it.
NAME = r"[^\s.(){}\[\];,\"@]"
DECLARED = re.compile(r"^(\s*)(?:module _ .*)?(?:abbrev |unfoldable )?(?:pub )?(?:record |data )?(" + NAME + r"+)(?:\s*[({].*[)}])*\s+:\s(.*)$")

# Names that would fall together with another word, or that are no noun phrase.
CHOSEN = {
    "to-come": "yet_to_come",
    "bit-or": "bit_of_or",
    "bit-xor": "bit_of_xor",
    "Goes_on": "GoesOn",
}


def antt_and_rt(root):
    for folder, dirs, files in os.walk(os.path.join(root, "crates")):
        dirs[:] = sorted(d for d in dirs if d != "out")
        for f in sorted(files):
            if f.endswith((".antt", ".rt")):
                yield os.path.join(folder, f)


def declared(paths):
    names = set()
    for path in paths:
        if not path.endswith(".antt"):
            continue
        for line in open(path, encoding="utf-8"):
            line = line.rstrip("\n")
            found = DECLARED.match(line)
            if found and not line.lstrip().startswith(("--", "use ")) and not found.group(3).startswith("goal."):
                names.add(found.group(2))
    return names


def respelled(name):
    if name in CHOSEN:
        return CHOSEN[name]
    if "-" not in name:
        return name
    if name[0].isupper():
        return "".join(part[0].upper() + part[1:] for part in re.split("[-_]", name))
    return name.replace("-", "_")


def pieces(text, rust):
    """The text cut into (is code, piece): strings and comments are no code."""
    comment = "//" if rust else "--"
    at, start = 0, 0
    while at < len(text):
        if text[at] == '"':
            yield True, text[start:at]
            end = at + 1
            while end < len(text) and text[end] != '"':
                end += 2 if text[end] == "\\" else 1
            yield False, text[at : end + 1]
            at = start = end + 1
        elif text.startswith(comment, at) and (rust or at == 0 or text[at - 1].isspace()):
            yield True, text[start:at]
            end = text.find("\n", at)
            end = len(text) if end < 0 else end
            yield False, text[at:end]
            at = start = end
        elif rust and text[at] == "'" and text[at + 2 : at + 3] == "'":
            at += 3
        else:
            at += 1
    yield True, text[start:]


def turned(text, rust, new):
    token = re.compile(NAME + "+")
    out = []
    for code, piece in pieces(text, rust):
        out.append(token.sub(lambda m: new.get(m.group(0), m.group(0)), piece) if code else piece)
    return "".join(out)


def main(root):
    paths = list(antt_and_rt(root))
    names = declared(paths)
    new = {n: respelled(n) for n in sorted(names) if respelled(n) != n}
    before = set()
    for path in paths:
        before |= set(re.findall(NAME + "+", open(path, encoding="utf-8").read()))
    for old in new:
        print(f"{old} -> {new[old]}" + ("   (stood before)" if new[old] in before else ""))
    values = list(new.values())
    for twice in sorted({v for v in values if values.count(v) > 1}):
        print(f"falls together: {twice}")
    for path in paths:
        text = open(path, encoding="utf-8").read()
        after = turned(text, path.endswith(".rt"), new)
        if after != text:
            with open(path, "w", encoding="utf-8") as f:
                f.write(after)


if __name__ == "__main__":
    main(sys.argv[1] if len(sys.argv) > 1 else ".")
