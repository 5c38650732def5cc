"""Every must-fail edit is named in docs/EDITS.md, and every edit that a document names is there.

An edit is named as `CRATE/NAME` in backticks. Beside that: what an edit replaces stands once in its file, and what it puts there uses
only words that the file has elsewhere, so that the prover refuses the mistake and not a name that is unknown.
"""

import glob
import os
import re
import sys

ROOT = os.path.dirname(os.path.dirname(os.path.abspath(__file__)))
WORD = re.compile(r"[^\W\d][\w′₀-₉-]*")


def edits():
    for path in sorted(glob.glob(os.path.join(ROOT, "crates/*/must-fail/*.edit"))):
        yield f"{path.split(os.sep)[-3]}/{os.path.basename(path)[:-5]}", path


def named(crates):
    """(document, name) for each edit that a document names."""
    documents = glob.glob(os.path.join(ROOT, "*.md")) + glob.glob(os.path.join(ROOT, "docs", "**", "*.md"), recursive=True)
    for document in sorted(documents):
        for crate, name in re.findall(r"`(\w+)/(\w+)`", open(document).read()):
            if crate in crates:
                yield os.path.relpath(document, ROOT), f"{crate}/{name}"


def slips(name, path):
    text = open(path).read()
    file = re.search(r"(?m)^file: (.*)$", text).group(1)
    source = open(os.path.join(ROOT, "crates", name.split("/")[0], file)).read()
    for old in re.findall(r"(?m)^old: (.*)$", text):
        if source.count(old) != 1:
            yield f"{name}: what it replaces stands {source.count(old)} times in {file}"
    # of Rattle, words of the language and of its prelude and what is told by its type are known everywhere
    known = set(WORD.findall(source)) | ({"true", "false", "Some", "None", "Ok", "Err"} if file.endswith(".rt") else set())
    for new in re.findall(r"(?m)^new: (.*)$", text):
        for word in set(WORD.findall(re.sub(r"(\.|::)\w+", "", new) if file.endswith(".rt") else new)) - known:
            yield f"{name}: {file} has no {word}"


def unknown():
    """What docs/EDITS.md says refuses an edit and is not in the crates."""
    places = ("src/**/*.rt", "specs/**/*.antt", "proofs/**/*.antt")
    sources = [path for place in places for path in glob.glob(os.path.join(ROOT, "crates/*", place), recursive=True)]
    known = set(WORD.findall("\n".join(open(path).read() for path in sources)))
    for row in re.findall(r"(?m)^\| `.*\|$", open(os.path.join(ROOT, "docs/EDITS.md")).read()):
        for name in re.findall(r"`([\w-]+)`", row):
            if name not in known:
                yield f"docs/EDITS.md: nothing is called {name}"


def main():
    there = dict(edits())
    crates = set(os.listdir(os.path.join(ROOT, "crates")))
    names = list(named(crates))
    listed = {name for document, name in names if document == "docs/EDITS.md"}
    bad = [f"{document} names an edit that is not there: {name}" for document, name in names if name not in there]
    bad += [f"docs/EDITS.md does not name {name}" for name in there if name not in listed]
    bad += [line for name, path in there.items() for line in slips(name, path)] + list(unknown())
    for line in bad:
        print(line)
    print(f"{len(there) + len(names) - len(bad)} passed, {len(bad)} failed")
    return 1 if bad else 0


sys.exit(main())
