#!/usr/bin/env python3
"""Brings this repository's own definitions and lemmas to snake case.

usage: python3 tools/respell.py        at the top of the repository, once, after the kit's port.py

In specs/, in proofs/ and in the clauses of src/ a name of our own with a dash gets an underscore in its place. Names of the
library, names of goals and of steps that the check makes, comments, strings and Rust's own names keep their spelling.
It stops, and writes nothing, where two names of one file would fall together.
"""

import glob
import re
import sys

NAME = re.compile(r"(?<![\w'\u25cc.-])[A-Za-z][\w']*(?:-[\w']+)+(?![\w'-])")
FIELD = re.compile(r"(?<=\.)[A-Za-z][\w']*(?:-[\w']+)+(?![\w'-])")
LIBRARY = re.compile(r"use (?:Rattle\.std\.|native\.|mathlib\.|borrow\.|lib\.|Prim\.)[^\s{;]*\.\{([^}]*)\}")
GOALS = re.compile(r"use Rattle\.[^\s{;]*\.(?:Goals|Given)\.\{([^}]*)\}")
GOAL = re.compile(r"\bgoal\.([\w'+-]+)")
# A dash in a name of a relation whose parts are words: types are in camel case.
CAMEL = {"Joins-at": "JoinsAt"}
# Names that would not be in snake case without the dash alone.
PLAIN = {"eqZ": "same_int", "eqZ-back": "same_int_back", "eqZ-no": "same_int_no", "eqZ-yes": "same_int_yes", "decides-eqZ": "decides_same_int"}


def respelled(name):
    return CAMEL.get(name) or PLAIN.get(name) or name.replace("-", "_")


def own_fields(texts):
    """The fields of our own records that have a dash: only they are turned after a dot, beside full paths."""
    found = set()
    for path, text in texts.items():
        if "/specs/" in path or re.search(r"/proofs/[A-Z]\w*\.antt$", path):
            found |= set(re.findall(r"^ +(?:pub )?([a-z][\w']*(?:-[\w']+)+) : ", text, re.M))
    return found


def words(found):
    return {w for m in found for w in re.findall(r"[^\s,{}]+", m) if w != "as"}


def kept(text):
    """The names that this file has from the library or from the check."""
    names = words(LIBRARY.findall(text)) | words(GOALS.findall(text))
    return names | set(GOAL.findall(text))


def turn(path, text, fields):
    keep = kept(text)

    def code(part):
        part = NAME.sub(lambda m: m.group(0) if m.group(0) in keep else respelled(m.group(0)), part)
        part = FIELD.sub(lambda m: respelled(m.group(0)) if m.group(0) in fields else m.group(0), part)
        for old, new in PLAIN.items():
            part = re.sub(r"(?<![\w'.-])" + old + r"(?![\w'-])", new, part)
        return part

    comment = "--" if path.endswith(".antt") else "//"
    lines = []
    for line in text.split("\n"):
        m = re.match(r'((?:[^"' + comment[0] + r']|"(?:[^"\\]|\\.)*"|' + re.escape(comment[0]) + r"(?!" + re.escape(comment[0]) + r"))*)(.*)$", line, re.S)
        head, tail = m.group(1), m.group(2)
        parts = re.split(r'("(?:[^"\\]|\\.)*")', head)
        lines.append("".join(p if i % 2 else code(p) for i, p in enumerate(parts)) + tail)
    return "\n".join(lines)


def main():
    paths = sorted(glob.glob("crates/*/src/**/*.rt", recursive=True) + glob.glob("crates/*/specs/**/*.antt", recursive=True) + glob.glob("crates/*/proofs/**/*.antt", recursive=True))
    texts = {}
    for p in paths:
        with open(p, encoding="utf-8") as f:
            texts[p] = f.read()
    fields = own_fields(texts)
    turned, wrong = {}, []
    for p, text in texts.items():
        seen = set(re.findall(r"(?<![\w'.-])[A-Za-z][\w']*(?:-[\w']+)*(?![\w'.-])", re.sub(r"(--|//).*", "", text)))
        new = turn(p, text, fields)
        for n in seen:
            if "-" in n and n not in kept(text) and p.endswith(".antt") and respelled(n) in seen:
                wrong.append(f"{p}: {n} and {respelled(n)}")
        if new != text:
            turned[p] = new
    for w in wrong:
        print("falls together: " + w)
    if wrong and "--anyway" not in sys.argv:
        return 1
    for p, new in turned.items():
        with open(p, "w", encoding="utf-8") as f:
            f.write(new)
    print(f"respelled: {len(turned)} of {len(paths)} files")
    return 0


if __name__ == "__main__":
    sys.exit(main())
