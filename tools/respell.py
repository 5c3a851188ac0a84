#!/usr/bin/env python3
"""Respells this repository's own definitions and lemmas: words in snake case, types in camel case.

usage: tools/respell.py [--dry]     at the top of the repository, once, after the language's own scripts have run

The names are those that specs/ and proofs/ declare. A lemma that would fall together with a definition gets `_lem`. Rust's names,
strings, inputs and outputs keep theirs; comments and the pages' code marks follow.
"""
import collections
import glob
import os
import re
import sys

IDENT = r"[A-Za-z_\u0370-\u03ff\u2080-\u2089][\w'\u2032\u2080-\u2089-]*"
MARKS = r"(?:abbrev |unfoldable |pub |private )*"
# Where two of our own names would fall together.
CHOSEN = {"oneMore": "one_more_term"}
# Generated words that are declared nowhere here but look like ours.
KEEP = set()


def files(*patterns):
    for pattern in patterns:
        for path in sorted(glob.glob(pattern, recursive=True)):
            if os.path.isfile(path) and "/out/" not in path:
                yield path


def declared():
    """Each name of ours, in the order of its first file."""
    names = {}
    for path in files("crates/*/specs/**/*.antt", "crates/*/proofs/**/*.antt"):
        for line in open(path, encoding="utf-8"):
            if re.match(r"\s*--|\s*(pub )?use ", line):
                continue
            m = re.match(r"\s*" + MARKS + r"(?:record|data|ruleset)\s+(" + IDENT + ")", line)
            m = m or re.match(r"\s*" + MARKS + "(" + IDENT + r")(?:\s*\{[^}]*\})?\s*:(?!=)", line)
            # What answers a goal has the goal's name, which is the check's.
            if m and not re.match(r"\s*(goal|tie)\.|\s*\{M : Type 1\}", line[m.end():]):
                names.setdefault(m.group(1), path)
    return names


def foreign():
    """The names that our files import from elsewhere: those stay."""
    found = set()
    for path in files("crates/**/*.antt", "crates/**/*.rt"):
        for m in re.finditer(r"use ([\w.+]+)\.\{([^}]*)\}", open(path, encoding="utf-8").read()):
            own = re.match(r"Rattle\.(\w+)\.", m.group(1))
            if not (own and os.path.isdir("crates/" + own.group(1))):
                found |= {w.strip() for w in m.group(2).split(",")}
    return found


def respelled(name):
    if name[0].isupper():
        return "".join(part[:1].upper() + part[1:] for part in name.split("-"))
    name = name.replace("-", "_").replace("\u2032", "'")
    return re.sub(r"(?<=[a-z0-9])([A-Z])", lambda m: "_" + m.group(1).lower(), name)


def renamings():
    names, others = declared(), foreign()
    by_new = collections.defaultdict(list)
    for name in names:
        by_new[respelled(name)].append(name)
    table = {}
    for new, olds in by_new.items():
        for old in olds:
            to = CHOSEN.get(old, new)
            if old not in CHOSEN and "-" in old and len(olds) > 1:
                to = new + "_lem"
            if old != to and old not in KEEP:
                if old in others:
                    print(f"look: {old} of {names[old]} is also a name from elsewhere: left")
                    continue
                table[old] = to
    return table


def turn(text, table, strings):
    """text with each name of table respelled; with strings, those in double quotes stay."""
    word = re.compile(r"(?<![\w'\u2032-])" + IDENT)

    def one(m):
        return table.get(m.group(0), m.group(0))

    if not strings:
        return word.sub(one, text)
    parts = re.split(r'("(?:[^"\\\n]|\\.)*")', text)
    return "".join(p if i % 2 else word.sub(one, p) for i, p in enumerate(parts))


def main():
    dry = "--dry" in sys.argv
    table = renamings()
    for path in files("crates/**/*.antt", "crates/**/*.rt", "crates/*/must-fail/*.edit"):
        old = open(path, encoding="utf-8").read()
        words = set(re.findall(IDENT, old))
        for a, b in table.items():
            if a in words and b in words:
                print(f"look: {path}: {a} becomes {b}, which stands there already")
        new = turn(old, table, path.endswith(".rt"))
        if new != old and not dry:
            open(path, "w", encoding="utf-8").write(new)
    for path in files("README.md", "docs/*.md", "include/*.h"):
        old = open(path, encoding="utf-8").read()
        marked = re.split(r"(`[^`\n]*`)", old)
        new = "".join(turn(p, table, True) if i % 2 else p for i, p in enumerate(marked))
        if new != old and not dry:
            open(path, "w", encoding="utf-8").write(new)
    print(f"{len(table)} names respelled")


main()
