"""The documents quote the statements that stand in the proofs, and place only definitions that are there.

Each quoted block of docs/THEOREMS.md follows a line "`NAME`, proofs/FILE.antt:" (of crates/meaning) or "`NAME`,
crates/CRATE/proofs/FILE.antt:" and must be the signature of a public NAME in that file. Each block of Rust must stand in the source
file named in the paragraph before it. Wherever a document says "`NAME` (specs/FILE.antt)" or "(`NAME`, proofs/FILE.antt)", with one name
or several, a file of that name in some crate has them; and "`NAME` (CRATE/src/FILE.rt)", or a row of a table that says so, names what the
source declares.
"""

import glob
import os
import re
import sys

ROOT = os.path.dirname(os.path.dirname(os.path.abspath(__file__)))
NAMES = r"((?:`[^`\s]+`(?:, | and ))*`[^`\s]+`)"
FILE = r"((?:crates/\w+/)?(?:specs|proofs)/\w+\.antt)"


def flat(text):
    return " ".join(text.split())


def read(path):
    return open(os.path.join(ROOT, path)).read()


def quoted(doc):
    for name, file, statement in re.findall(r"(?m)^`([^`]+)`, (\S+\.antt):\n\n```text\n(.*?)\n```", doc, re.S):
        path = file if file.startswith("crates/") else "crates/meaning/" + file
        rest = flat(read(path)).partition("pub " + flat(statement) + " ")[2]
        yield f"not in {path} as quoted: {name}", rest.startswith(("unfolding ", name + " "))
    for name, file, contract in re.findall(r"\(`(\w+)`, (\S+\.rt)\)[^\n]*\n\n```rust\n(.*?)\n```", doc, re.S):
        yield f"not in {file} as quoted: {name}", flat(contract) in flat(read(file)).partition(f"fn {name}(")[2]


def placed(document):
    doc = read(document)
    for names, file in re.findall(NAMES + r" \(" + FILE + r"\)", doc) + re.findall(NAMES + r", " + FILE + r"[);]", doc):
        sources = [open(p).read() for p in glob.glob(os.path.join(ROOT, file if file.startswith("crates/") else "crates/*/" + file))]
        for name in re.findall(r"`([^`]+)`", names):
            there = any(re.search(r"(?m)^.*\bpub (?:data |record )?" + re.escape(name) + r"(?= |$)", source) for source in sources)
            # constructors stand beside their type and are not public by themselves
            there = there or any(re.search(r"(?m)^  (?:\S+ )*" + re.escape(name) + r"(?: \S+)* : ", source) for source in sources)
            yield f"{document}: no {name} in {file}", there
    for name, file in re.findall(r"(?m)^\| `(\w+)` \| (\w+/src/\w+\.rt) \|", doc) + re.findall(r"`(\w+)` \((?:crates/)?(\w+/src/\w+\.rt)\)", doc):
        yield f"{document}: no {name} in {file}", bool(re.search(r"\b(fn|struct|enum|const) " + name + r"\b", read("crates/" + file)))


def main():
    documents = ["README.md"] + [os.path.relpath(p, ROOT) for p in sorted(glob.glob(os.path.join(ROOT, "docs/*.md")))]
    statements = list(quoted(read("docs/THEOREMS.md")))
    found = statements + [case for document in documents for case in placed(document)]
    bad = [line for line, good in found if not good]
    for line in bad:
        print(line)
    print(f"{len(found) - len(bad)} passed, {len(bad)} failed")
    return 1 if bad or not statements else 0


sys.exit(main())
