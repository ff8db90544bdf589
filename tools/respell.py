#!/usr/bin/env python3
"""Spells this repository's own definitions, record fields and lemmas in snake case, as the port to the newer Rattle asks.

usage: tools/respell.py        at the top of the repository, once, right after port.py

A word of antt that begins with a small letter turns by camel case, as `sumFrom` to `sum_from` and `minℤ` to `min_ℤ`; a name that a file of
specs/ declares turns its dashes too, as `same-cells` to `same_cells`. A dash in the name of a lemma stays: there it joins two names.
Words turn whole, in .antt files with their comments, in .rt files outside strings, in must-fail/*.edit, and in the code spans of the pages.
Refused, and nothing is written, where two names would fall together.
"""

import os
import re
import sys

WORD = re.compile(r'[^\s(){}.;,@"«»`:|]+')
DECLARED = re.compile(r"(?m)^ *(?:(?:pub|abbrev|unfoldable|data|record) )*([^\s(){}.;,:\"]+) (?:\{[^}]*\} )*:")
STRING = re.compile(r'b?"(?:\\.|[^"\\])*"')
# fields of records of their own, under which one name is plain
FIELDS = ("safe_lows", "safe_highs")


def files(*ends):
    for top in ("crates", "docs", "README.md"):
        if os.path.isfile(top):
            yield top
        for folder, dirs, names in os.walk(top):
            dirs[:] = sorted(d for d in dirs if d not in ("out", "changes"))
            for name in sorted(names):
                if name.endswith(ends):
                    yield os.path.join(folder, name)


def text(path):
    with open(path, encoding="utf-8") as f:
        return f.read()


def snake(word):
    word = re.sub(r"(?<=[a-z0-9])([ℤℕ])", r"_\1", word)
    return re.sub(r"([a-z0-9])([A-Z])", lambda m: m[1] + "_" + m[2].lower(), word)


def table():
    new = {}
    for path in files(".antt"):
        if not path.endswith(".antt"):
            continue
        words = set(WORD.findall(re.sub(r'(?<!\S)--[^\n]*', "", text(path))))
        for word in words:
            if re.match(r"[a-z]", word) and re.search(r"[a-z0-9][A-Zℤℕ]", word):
                new[word] = snake(word)
        if "/specs/" in path:
            for word in DECLARED.findall(text(path)):
                if "-" in word and re.match(r"[a-zℤℕ]", word):
                    new[word] = snake(word).replace("-", "_")
    turned = {}
    for word, to in new.items():
        if turned.setdefault(to, word) != word and to not in FIELDS:
            sys.exit(f"{word} and {turned[to]} would both be {to}")
    return new


def turn(part, new):
    return WORD.sub(lambda m: new.get(m[0], m[0]), part)


def outside_strings(part, new):
    out, end = [], 0
    for m in STRING.finditer(part):
        out += [turn(part[end : m.start()], new), m[0]]
        end = m.end()
    return "".join(out + [turn(part[end:], new)])


def main():
    new = table()
    changed = 0
    for path in files(".antt", ".rt", ".edit", ".md"):
        old = text(path)
        if path.endswith(".md"):
            now = re.sub(r"`[^`\n]*`", lambda m: turn(m[0], new), old)
        elif path.endswith(".antt"):
            now = turn(old, new)
        else:
            now = outside_strings(old, new)
        if now != old:
            with open(path, "w", encoding="utf-8") as f:
                f.write(now)
            changed += 1
    for word, to in sorted(new.items()):
        print(f"{word}\t{to}")
    print(f"{len(new)} names in {changed} files", file=sys.stderr)


main()
