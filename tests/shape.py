#!/usr/bin/env python3
"""tests/shape.py: what a reader may rely on in the sources: short lists of parameters, each of them read, short functions, and that
nothing above the crates that compile a call reads the image, its sections or the table's words, or knows a number of the compiled layout.

Ends with 'N passed, M failed'; names every place that breaks a rule.
"""
import pathlib
import re
import sys

MOST_PARAMETERS, MANY_PARAMETERS, OVER_MANY, MOST_LINES = 12, 8, 40, 40
# what compiles a call, and the C boundary with the programs behind it
READERS = {"image", "compiled", "calls", "gpc", "gpc_c", "printing", "listing", "examples"}
# places and sizes of the compiled words (crates/compiled/src/derived.rt); 8, 64 and the like are too common to look for
LAYOUT = re.compile(r"(?<![\w.])(226|328|391|392|904|1008|1928|2128|2328|2528|3008)(?![\w.])")
HEAD = re.compile(r'^( *)(?:pub )?(?:extern "C" )?fn (\w+)\s*(?:<[^>(]*>)?\(', re.M)


def functions(text):
    """Each function's name, parameters, lines of body with head, the contract left out, and its body."""
    for head in HEAD.finditer(text):
        depth, i = 1, head.end()
        while depth:
            depth += {"(": 1, ")": -1}.get(text[i], 0)
            i += 1
        parameters = [p.strip() for p in split(text[head.end():i - 1]) if p.strip()]
        end = text.index("\n" + head.group(1) + "}", i)
        body = re.sub(r"//.*", "", text[text.index("\n" + head.group(1) + "{", i - 1) if "\n" + head.group(1) + "{" in text[i - 1:end] else text.index("{", i):end])
        lines = [l for l in text[head.start():end].split("\n") if l.strip() and not re.match(r"\s*(requires|ensures)\b", l)]
        yield head.group(2), parameters, len(lines) + 1, body


def split(parameters):
    """The parameters, at the commas that stand in no brackets."""
    depth, parts = 0, [""]
    for c in parameters:
        depth += (c in "(<[") - (c in ")>]")
        if c == "," and depth == 0:
            parts.append("")
        else:
            parts[-1] += c
    return parts


def reads_source(parameter):
    """Whether a parameter is the image, its sections or the words of a table."""
    return bool(re.search(r"&(mut )?\[u8\]|\bSections\b", parameter)) or bool(re.match(r"pattern\s*:\s*&\[u16\]", parameter))


def main():
    crates = pathlib.Path("crates")
    above = "compiled"
    rules = {"at most %d parameters" % MOST_PARAMETERS: [], "at most %d lines" % MOST_LINES: [],
             "only what compiles a call reads image and table": [], "the layout's numbers stand in one crate": [],
             "every parameter is read": []}
    titles = list(rules)
    many = []
    users = users_of(above)
    for path in sorted(crates.glob("*/src/**/*.rt")):
        crate = path.parts[1]
        text = path.read_text(encoding="utf-8")
        for name, parameters, lines, body in functions(text):
            place = "%s: %s" % (path, name)
            for parameter in (re.sub(r"^(mut |&mut |&)", "", p).split(":")[0] for p in parameters):
                if not re.search(r"\b%s\b" % parameter, body):
                    rules[titles[4]].append("%s, %s" % (place, parameter))
            if len(parameters) > MANY_PARAMETERS:
                many.append("%s, %d parameters" % (place, len(parameters)))
            if len(parameters) > MOST_PARAMETERS:
                rules[titles[0]].append(place)
            if lines > MOST_LINES:
                rules[titles[1]].append("%s, %d lines" % (place, lines))
            if crate in users and crate not in READERS and any(reads_source(p) for p in parameters):
                rules[titles[2]].append(place)
    for path in sorted([*crates.glob("*/src/**/*.rt"), *crates.glob("*/specs/**/*.antt"), *crates.glob("*/proofs/**/*.antt")]):
        if path.parts[1] in users and path.parts[1] != above:
            for number, line in enumerate(path.read_text(encoding="utf-8").split("\n"), 1):
                if LAYOUT.search(line.split("--")[0].split("//")[0]):
                    rules[titles[3]].append("%s:%d" % (path, number))
    rules["at most %d functions over %d parameters" % (OVER_MANY, MANY_PARAMETERS)] = many if len(many) > OVER_MANY else []
    failed = [title for title, places in rules.items() if places]
    for title in failed:
        print("failed: %s\n  %s" % (title, "\n  ".join(rules[title])))
    print("functions over %d parameters: %d" % (MANY_PARAMETERS, len(many)))
    print("%d passed, %d failed" % (len(rules) - len(failed), len(failed)))
    return 1 if failed else 0


def users_of(crate):
    """The crates that depend on a crate, and the crate itself."""
    needs = {}
    for line in open("crates.txt", encoding="utf-8"):
        name, colon, rest = line.split("#")[0].partition(":")
        if colon:
            needs[name.split()[0]] = rest.split()
    found = {crate}
    while True:
        more = {name for name, rest in needs.items() if found & set(rest)} | found
        if more == found:
            return found
        found = more


sys.exit(main())
