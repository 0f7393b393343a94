#!/usr/bin/env python3
"""Gives the repository's own definitions and lemmas today's spelling: words in snake case, types and modules in camel case.

usage: python3 tools/respell.py [ROOT]

spelling.tsv, beside this script, has a line for each name: the old spelling, a tab, the new one. A dash is kept where it joins two
names, as in sum-ranked, and becomes an underscore before a plain word, as in count_on. Sources, specs, proofs and must-fail edits are
respelled whole, documents in their camel-case words alone. Run once, after the toolchain's own script and before any edit by hand.
"""

import os
import re
import sys

HERE = os.path.dirname(os.path.realpath(__file__))
NAME = r"[\w'+*-]"


def spelling():
    with open(os.path.join(HERE, "spelling.tsv"), encoding="utf-8") as lines:
        return dict(line.rstrip("\n").split("\t") for line in lines if line.strip())


def texts(root):
    for top in ("crates", "docs", "README.md"):
        path = os.path.join(root, top)
        if os.path.isfile(path):
            yield path
        for folder, inner, files in os.walk(path):
            inner[:] = sorted(name for name in inner if name != "out")
            for name in sorted(files):
                if name.endswith((".rt", ".antt", ".edit", ".md")):
                    yield os.path.join(folder, name)


def respelled(text, path, names):
    prose = path.endswith(".md")
    chosen = {old: new for old, new in names.items() if "-" not in old} if prose else names
    return re.sub(r"(?<!%s)[A-Za-z]%s*(?!%s)" % (NAME, NAME, NAME), lambda found: chosen.get(found.group(0), found.group(0)), text)


def main(root):
    names = spelling()
    for path in texts(root):
        with open(path, encoding="utf-8") as file:
            before = file.read()
        after = respelled(before, path, names)
        if after != before:
            with open(path, "w", encoding="utf-8") as file:
                file.write(after)
            print(os.path.relpath(path, root))


main(sys.argv[1] if len(sys.argv) > 1 else os.path.dirname(HERE))
