#!/usr/bin/env python3
"""Brings the repository's own definitions and lemmas to the spelling of today's Rattle: words in snake case, types and modules in camel case.

usage: spell.py [ROOT]      rewrites ROOT/crates (.rt, .antt, must-fail/*.edit) and prints each name with its new spelling

Run once, after the kit's port.py. Renamed are the names that specs/ and the lemma files of proofs/ define: definitions, lemmas, fields and
constructors that begin in lower case. What the kit's library calls so keeps its name in each file that imports it from there. A new
spelling that some file has for something else already, as the function of src/ that the definition describes, gets '_lem' behind it, or
'_law' where the old one has a dash.
"""

import collections
import os
import re
import sys

NAME = r"[^\s(){}\[\],;.\"`]+"
HEAD = re.compile(r"^\s*(?:(?:pub|abbrev|unfoldable|record|data|mutual)\s+)*(" + NAME + r")(?:\s*(?:\([^()]*\)|\{[^{}]*\}))*\s+:\s")
USE = re.compile(r"(?:ghost )?use ([\w.+'-]+)\.\{([^}]*)\}")
WORDS = {"use", "let", "in", "open", "module", "where", "elim", "rw", "simp", "unfolding", "mod", "_"}


def files(root, endings):
    for folder, dirs, names in os.walk(os.path.join(root, "crates")):
        dirs[:] = sorted(d for d in dirs if d != "out")
        for name in sorted(names):
            if name.endswith(endings):
                yield os.path.join(folder, name)


def is_shared(path):
    """Whether other files may cite what this one defines: a file of specs/, or of lemmas right in proofs/."""
    parts = path.split("/")
    return path.endswith(".antt") and ("specs" in parts or parts[-2] == "proofs")


def code(text, antt):
    return re.sub(r"--.*" if antt else r"//.*", "", text)


def snake(name):
    """first-Known, firstKnown: first_known. A part that begins in upper case is a type's name and keeps it."""
    parts = []
    for part in name.split("-"):
        if part[:1].islower():
            part = re.sub(r"(?<=[a-z0-9])([A-Z])", lambda m: "_" + m.group(1).lower(), part)
        parts.append(part)
    return "_".join(parts)


def is_word(name):
    return name[:1].islower() and name not in WORDS and not any(it in name for it in "◌") and bool(re.match(r"^[\w'₀-₉→←↔ℕℤθμνξπρκγδφψσΓ-]+$", name))


def defined(root):
    found = collections.defaultdict(set)
    for path in files(root, (".antt",)):
        if is_shared(path):
            with open(path, encoding="utf-8") as f:
                for line in code(f.read(), True).split("\n"):
                    head = HEAD.match(line)
                    if head and is_word(head.group(1)) and snake(head.group(1)) != head.group(1):
                        found[head.group(1)].add(path)
    return found


def from_kit(text, own):
    """The names that the file imports from the kit's libraries."""
    names = set()
    for module, items in USE.findall(text):
        parts = module.split(".")
        if parts[0] != "Rattle" or parts[1] not in own:
            for item in items.split(","):
                names.update(item.split())
    return names


def tokens(text):
    return set(re.findall(NAME, text))


def choose(root, found, own):
    """Each name's new spelling. One that stands for something else in some file already gets an ending."""
    texts = {}
    for path in files(root, (".rt", ".antt")):
        with open(path, encoding="utf-8") as f:
            text = f.read()
        texts[path] = (tokens(code(text, path.endswith(".antt"))), from_kit(text, own))
    new, taken = {}, set(found)
    holders = collections.defaultdict(list)
    for path, (words, kit) in texts.items():
        for name in words & taken:
            if name not in kit:
                holders[name].append(path)
    by_new = collections.defaultdict(list)
    for name in sorted(found):
        by_new[snake(name)].append(name)
    for name in sorted(found):
        to = snake(name)
        rust = {word for path in holders[name] if path.endswith(".rt") for word in texts[path][0]}
        clash = to in rust or len(by_new[to]) > 1 and by_new[to][0] != name
        clash = clash or any(to in texts[path][0] for path in holders[name] if path.endswith(".antt"))
        new[name] = to + ("_law" if "-" in name else "_lem") if clash else to
    fallen = [it for it, n in collections.Counter(new.values()).items() if n > 1]
    if fallen:
        sys.exit("names that fall together: " + ", ".join(sorted(fallen)))
    return new


def renamed(text, new, kit):
    def one(match):
        word = match.group(0)
        return new[word] if word in new and word not in kit else word
    return re.sub(NAME, one, text)


def main():
    root = sys.argv[1] if len(sys.argv) > 1 else "."
    own = set(os.listdir(os.path.join(root, "crates")))
    found = defined(root)
    new = choose(root, found, own)
    for path in files(root, (".rt", ".antt", ".edit")):
        with open(path, encoding="utf-8") as f:
            text = f.read()
        after = renamed(text, new, from_kit(text, own))
        if after != text:
            with open(path, "w", encoding="utf-8") as f:
                f.write(after)
    for name in sorted(new):
        print(name, new[name])


if __name__ == "__main__":
    main()
