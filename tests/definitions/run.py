"""The definitions evaluated by the prover on the enumerator's random calls, every byte and word compared.

    python3 tests/definitions/run.py [SEED [COUNT]]

Each call becomes an equation between what a definition of crates/meaning computes and what the enumerator says the call leaves,
closed by computation alone. One equation is made wrong on purpose: the run counts only if just that one is refused.
"""

import os
import re
import shutil
import subprocess
import sys
import tempfile
from collections import Counter

ROOT = os.path.dirname(os.path.dirname(os.path.dirname(os.path.abspath(__file__))))
ENUMERATOR = os.path.join(ROOT, "tests/enumerator/target/release/enumerator")

# The names of crates/meaning: the proof that opens every definition, and the operations with the files that define them.
OPENED = ("QueryOpened", "query_opened")
READ = ("Operations", "read_image")
CHECK = ("QueryListing", "check_query")
JUDGE = ("QueryListing", "judge_record")
FILL = ("QueryListing", "fill_page_lem")

HEAD = """-- Random calls, decided by the enumerator.
use mathlib.Core.Path.{◌≡◌, refl}
use mathlib.Core.List.{List, [], ◌∷◌, ◌++◌}
use Prim.Native.Nat.{ℕ}
use lib.ListN.{replicate}
"""

# What a definition takes, in order, and what it leaves; the prover is slow on large images and listings, which the later comparisons cover.
CALLS = {
    "images": (READ, "{image} {report}", ["report"]),
    "queries": (CHECK, "{query} {types} {report}", ["types", "report"]),
    "records": (JUDGE, "{image} {query} {record} {work} {report}", ["work", "report"]),
    "pages": (
        FILL,
        "{image} {query} {bookmark} (record {{ sitting = {sitting}; page = {page}; work = {work}; report = {report} }})",
        ["sitting", "page", "work", "report"],
    ),
}
# Cases of conditions judge a record or fill a page.
SORTS = [*CALLS, "conditions"]
MOST = {"image": 110, "query": 80, "page": 250, "record": 250, "bookmark": 250}
# Of one listing so many calls at most, so that a run goes over many listings.
MOST_OF_ONE = 4
# Of so many page calls one is refused by 34, one is lent a sitting too short, and one carries the total into its second byte.
ONE_IN = 8


def cases(sort, seed, count):
    text = subprocess.run([ENUMERATOR, sort, str(seed), str(count)], capture_output=True, text=True, check=True).stdout
    for block in re.split(r"(?m)^case \d+\n", text)[1:]:
        yield dict(line.partition(" ")[::2] for line in block.splitlines())


def items(name, text):
    """The pieces of a dump, each a value and how often it stands there."""
    width = 2 if name.startswith(("image", "sitting", "report")) else 4
    for piece in text.split():
        if "*" in piece:
            item, _, count = piece.partition("*")
            yield int(item, 16), int(count)
        else:
            for at in range(0, len(piece), width):
                yield int(piece[at : at + width], 16), 1


def flat(name, text):
    return [value for value, count in items(name, text) for _ in range(count)]


def size(name, text):
    return sum(count for _, count in items(name, text))


def term(name, text):
    """A list of numbers as the prover writes it."""
    out = "[]"
    for value, count in reversed(list(items(name, text))):
        if count == 1:
            out = f"{value} ∷ {out}"
        else:
            out = f"(replicate {count} {value} ++ ({out}))"
    return f"({out})"


def call(sort, case):
    if sort == "conditions":
        sort = "records" if "record" in case else "pages"
    return CALLS[sort]


def equation(sort, case):
    (_, definition), takes, left = call(sort, case)
    lent = {name: term(name, value) for name, value in case.items() if name not in ("note", "result") and not name.endswith("-after")}
    fields = "; ".join(f"{name} = {term(name, case[name + '-after'])}" for name in left)
    return f"{definition} {takes.format(**lent)} ≡ record {{ result = {case['result']}; {fields} }}"


def head():
    uses = [f"use Rattle.meaning.proofs.{OPENED[0]}.{{{OPENED[1]}}}"]
    uses += [f"use Rattle.meaning.specs.{file}.{{{name}}}" for (file, name), _, _ in CALLS.values()]
    return HEAD + "\n".join(uses) + "\n\n"


def small(case):
    return all(size(name, case[name]) <= most for name, most in MOST.items() if name in case)


def depth(case):
    """How many connectives lie around one another in a condition of the first part."""
    words = flat("query", case["query"])
    start, depths = 1 + 3 * words[0], []
    for at in range(start, start + words[3], 5):
        kind, p, q = words[at : at + 3]
        named = {18: [p, q], 19: [p, q], 20: [p]}.get(kind, [])
        depths.append(max((1 + depths[row] for row in named), default=0))
    return max(depths)


def past_the_limit(case):
    return case["result"] == "1" and flat("report", case["report-after"])[:8] == [34, 0, 0, 0, 0, 0, 0, 0]


def short_sitting(case):
    return size("sitting", case["sitting"]) < 4


def carried(case):
    return flat("sitting", case["sitting"])[1:4] != flat("sitting", case["sitting-after"])[1:4]


def by_sitting(found, count):
    """Some calls of each of these sorts, which are rare, then the others as they were drawn."""
    first = []
    for sort in past_the_limit, short_sitting, carried:
        first += [case for case in found if sort(case)][: count // ONE_IN]
    return first + [case for case in found if case not in first]


def kept(sort, seed, count):
    """Small calls, of which only a few are of one listing; of pages some with each sort of sitting, of conditions the deepest."""
    found, listings = [], Counter()
    for case in cases(sort, seed, 60 * count):
        listing = (case.get("image"), case.get("query"))
        listings[listing] += small(case)
        if small(case) and listings[listing] <= MOST_OF_ONE:
            found.append(case)
    if sort == "pages":
        found = by_sitting(found, count)
    if sort == "conditions":
        found.sort(key=depth, reverse=True)
    return found[:count]


def module(seed, count):
    names, text = [], head()
    for sort in SORTS:
        for at, case in enumerate(kept(sort, seed, count)):
            name = f"{sort}-{at}"
            names.append(name)
            text += f"{name} : {equation(sort, case)}\nunfolding {OPENED[1]}\n{name} = refl\n\n"
    wrong = READ[1] + " [] (replicate 64 0) ≡ record { result = 1; report = 2 ∷ replicate 63 0 }"
    return names, text + f"wrong : {wrong}\nunfolding {OPENED[1]}\nwrong = refl\n"


def evaluate(text):
    """The names of the equations that the prover refuses, and all that it wrote."""
    with tempfile.TemporaryDirectory() as folder:
        shutil.copytree(os.path.join(ROOT, "crates/meaning"), os.path.join(folder, "crates/meaning"), ignore=shutil.ignore_patterns("must-fail", "out"))
        with open(os.path.join(folder, "crates.txt"), "w") as crates:
            crates.write("meaning:\n")
        proofs = os.path.join(folder, "crates/meaning/proofs")
        with open(os.path.join(proofs, "CallsTried.antt"), "w") as file:
            file.write(text)
        with open(os.path.join(proofs, "Lib.antt"), "a") as lib:
            lib.write("pub mod CallsTried\n")
        run = subprocess.run(["rt", "check"], cwd=os.path.dirname(proofs), capture_output=True, text=True)
        said = run.stdout + run.stderr
        return set(re.findall(r"CallsTried\.antt:\d+:\d+: error: `([^`]+)`", said)), said


def main():
    seed = int(sys.argv[1]) if len(sys.argv) > 1 else 1
    count = int(sys.argv[2]) if len(sys.argv) > 2 else 40
    names, text = module(seed, count)
    refused, said = evaluate(text)
    others = [line for line in said.splitlines() if re.search(r"\berror(\[[\w-]+\])?: ", line) and "CallsTried.antt" not in line]
    if "wrong" not in refused or others:
        print("the calls were not evaluated:\n" + "\n".join(others or said.splitlines())[-3000:])
        print(f"0 passed, {len(names)} failed")
        return 1
    # A call too large for the prover's limit of steps says nothing; a handful may be so.
    large = set(re.findall(r"CallsTried\.antt:\d+:\d+: error: `([^`]+)`: [^\n]*stopped at the step limit", said))
    bad = sorted(name for name in names if name in refused - large)
    for name in bad:
        print("differs:", name, re.search(rf"(?m)^{re.escape(name)} : .*$", text).group(0)[:2000])
    if large:
        print(f"too large to evaluate, not counted: {len(large)} of {len(names)}")
    print(f"{len(names) - len(bad) - len(large)} passed, {len(bad)} failed")
    return 1 if bad or 10 * len(large) > len(names) or not names else 0


sys.exit(main())
