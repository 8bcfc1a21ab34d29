#!/usr/bin/env python3
"""Brings the repository's own definitions and lemmas to one spelling: words in snake case, types and facts in camel case.

usage: python3 tools/respell.py [FOLDER]      once, at the top of a checkout whose files have names with hyphens

A name is one that a file of specs/ or proofs/ defines at its head or as a field of a record. The labels of goals, which Rattle makes, and
the names of functions in src/ stay. Comments are changed only between backticks, strings not at all.
"""

import os
import re
import sys

# Names that would meet another name, or that carry a part of an old library's spelling.
SPECIAL = {
    "Bad-text": "IsBadText",
    "Too-deep": "IsTooDeep",
    "bit-or": "bit_of_or",
    "class-getD": "class_get_or",
    "getD-mirror": "get_or_mirror",
    "getD-two": "get_or_two",
    "putMid-set": "put_mid_set",
}
# Constructors that have hyphens.
CONSTRUCTORS = ["after-n", "after-s", "at-end", "other-mark", "setting-aside", "taking-in"]
DELIMITERS = r"\s:(){}\[\].;,λ→\"`'"
NAME = "[^" + DELIMITERS + "]+"
HEAD = re.compile(r"^(?:abbrev |unfoldable )*(?:pub )?(?:abbrev |unfoldable )*(?:record |data )?(?:pub )?(" + NAME + r")(?: [({].*)? :(.*)$")
FIELD = re.compile(r"^\s+pub (" + NAME + r") :")
TOKEN = re.compile("(?<![^" + DELIMITERS + "])" + NAME + "(?![^" + DELIMITERS + "])")


def files(top):
    for folder, dirs, names in os.walk(os.path.join(top, "crates")):
        dirs[:] = sorted(d for d in dirs if d != "out")
        for name in sorted(names):
            if name.endswith((".rt", ".antt")):
                yield os.path.join(folder, name)


def read(path):
    with open(path, encoding="utf-8") as f:
        return f.read()


def spelled(name):
    if name in SPECIAL:
        return SPECIAL[name]
    if name[0].isupper():
        return "".join(word[:1].upper() + word[1:] for word in name.split("-"))
    return name.replace("-", "_")


def own_names(top):
    names = set(CONSTRUCTORS)
    for path in files(top):
        if not path.endswith(".antt"):
            continue
        for line in read(path).splitlines():
            head = HEAD.match(line)
            if head and not head.group(2).strip().startswith("goal."):
                names.add(head.group(1))
            field = FIELD.match(line)
            if field:
                names.add(field.group(1))
    return {name: spelled(name) for name in names if "-" in name}


def turned(text, names):
    return TOKEN.sub(lambda m: names.get(m.group(0), m.group(0)), text)


def turned_line(line, mark, names):
    """The line with its names turned: what stands before a comment and outside strings, and what stands between backticks."""
    parts = re.split(r'("(?:[^"\\]|\\.)*")', line) if mark == "//" else [line]
    out, comment = [], False
    for part in parts:
        if part.startswith('"') and mark == "//" and not comment:
            out.append(part)
            continue
        if not comment:
            code, at, rest = part.partition(mark + " ")
            out.append(turned(code, names) + at)
            comment = bool(at)
            part = rest
        out.append(re.sub(r"`[^`]*`", lambda m: turned(m.group(0), names), part) if comment else "")
    return "".join(out)


def main():
    top = sys.argv[1] if len(sys.argv) > 1 else "."
    names = own_names(top)
    changed = 0
    for path in files(top):
        text = read(path)
        mark = "--" if path.endswith(".antt") else "//"
        new = "\n".join(turned_line(line, mark, names) for line in text.split("\n"))
        if new != text:
            changed += 1
            with open(path, "w", encoding="utf-8") as f:
                f.write(new)
    print(f"respell: {len(names)} names, {changed} files")


main()
