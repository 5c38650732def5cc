#!/usr/bin/env python3
"""Brings to today's spelling what tools/spell.py left: constructors that share a line of a data type, aliases of imports, parameters and
local names with a dash. usage: spell_rest.py [ROOT]; prints each name with its new spelling.

Names that some file imports from the kit's libraries keep theirs, and so do a goal's own parts (c.loop-i.invariant).
"""

import collections
import os
import re
import sys

sys.path.insert(0, os.path.dirname(os.path.abspath(__file__)))
from spell import NAME, code, files, from_kit, is_shared, snake, tokens  # noqa: E402

OWN = re.compile(r"^[a-z][\w'₀-₉←→]*([A-Z]|-[a-z0-9])[\w'₀-₉←→-]*$")


def main():
    root = sys.argv[1] if len(sys.argv) > 1 else "."
    own = set(os.listdir(os.path.join(root, "crates")))
    kit, found, holders = set(), set(), collections.defaultdict(set)
    for path in files(root, (".rt", ".antt")):
        with open(path, encoding="utf-8") as f:
            text = f.read()
        kit |= from_kit(text, own)
        words = tokens(code(text, path.endswith(".antt")))
        if is_shared(path):
            found |= {it for it in words if OWN.match(it) and len(it) > 3}
        for word in words:
            holders[word].add(path)
    # parts of a library's names that are cited by a path, and words of the language
    kit |= {"not-nil", "cases-cons"}
    new = {it: snake(it) for it in found - kit if snake(it) != it}
    for name in [it for it in new if holders[it] & holders[new[it]]]:
        print("taken:", name)
        new[name] += "_law" if "-" in name else "_lem"
    for path in files(root, (".rt", ".antt", ".edit")):
        with open(path, encoding="utf-8") as f:
            text = f.read()
        keep = path.endswith(("Answers.antt", "Invariants.antt"))
        def one(match):
            word = match.group(0)
            before = text[match.start() - 1 : match.start()]
            return new[word] if word in new and not (keep and before == "." and "-" in word) else word
        after = re.sub(NAME, one, text)
        if after != text:
            with open(path, "w", encoding="utf-8") as f:
                f.write(after)
    for name in sorted(new):
        print(name, new[name])


if __name__ == "__main__":
    main()
