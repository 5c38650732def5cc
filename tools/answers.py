#!/usr/bin/env python3
"""Turns proofs that walk the code by hand (Proof.antt) into Invariants.antt and Answers.antt.

usage: answers.py NAMES [CRATE ..]      at the repository's root; NAMES is a folder that `rt names NAMES` wrote there

Goals get their names of today, a step of the code is cited by its own name, and what `search rules` proves has no answer. A file with a
goal that NAMES does not list is left as it is, and said.
"""

import glob
import json
import os
import re
import sys

WORD = r"[\w'₀-₉←→↔⊎-]+"
DECLARED = re.compile(r"((?:pub |abbrev )*)(\S+) :\s+((?:.|\n(?=\s))*?)\n((?:unfolding[^\n]*\n)?)\2((?: [^\n=]*)?) =((?:.|\n(?=\s))*)\Z")
MADE = re.compile(r"^borrow\.Fn\b|\.(Statement|Tie|Reads|Kinds|Lts|Lts-\w+)$|\.\+\w+$")


class Left(Exception):
    pass


def same(label):
    return re.sub(r"^(overflow|slice-bounds|part)-", "", label.replace("_", "-"))


class Goals:
    """The goals of one function, old names and new."""

    def __init__(self, entry):
        self.needs, self.stem = entry["needs"], entry["stem"]
        self.at = [it[0] for it in entry["asked_at"]]
        self.place = {it[0]: it for it in entry["places"]}
        self.loops, self.changed = entry["loops"], entry["changed"]
        self.used = set()

    def find(self, label):
        fits = [i for i, (old, _) in enumerate(self.needs) if same(old) == same(label) and i not in self.used]
        if not fits:
            # by its place in the file, in which goals stand as in the code
            fits = [it for it in [len(self.used)] if it < len(self.needs) and it not in self.used]
        if not fits:
            raise Left(f"no goal for {label}")
        self.used.add(fits[0])
        return fits[0]

    def step(self, place, name):
        """The new name of a step on the way to a place."""
        while place:
            _, before, (old, new), _, _ = self.place[place]
            if same(old) == same(name):
                return new
            place = before
        return None

    def loop(self, label):
        for (names, variables), changed in zip(self.loops, self.changed):
            if names[0] == label:
                return names[1], variables, changed
        raise Left(f"no loop {label}")


def cited(term, goals, i, clauses):
    """The term with steps by their own names: c.before.before.row_at.ensures is c.row_at-r.ensures."""
    def one(match):
        parts = [it for it in match.group(1).split(".")[1:] if it != "before"]
        if not parts:
            return "c"
        if parts[0] == "requires" and len(parts) > 1 and parts[1].isdigit() and len(clauses) > 1:
            parts[1] = clauses[int(parts[1])]
        elif parts[0] not in ("requires", "args", "ranges"):
            parts[0] = goals.step(goals.at[i], parts[0]) or parts[0]
        return "c." + ".".join(parts)
    return re.sub(r"(?<![\w.'-])c((?:\.[\w'-]+)+)", one, term)


def put(body, what):
    """The body with each name of what in its place."""
    return re.sub(r"(?<![\w.'₀-₉-])(" + WORD + r")", lambda m: what.get(m.group(1), m.group(1)), body)


def clauses_of(source, name):
    """The names of the requires of the function."""
    head = re.search(r"fn " + name + r"\b[^{]*?((?:\n?\s*(?:requires|ensures)\*? [^\n]*)*)\n?\s*\{", source)
    return re.findall(r"requires (\w+) \{", head.group(1)) if head else []


class File:
    def __init__(self, path, crate, names, sources):
        self.path, self.crate, self.names, self.sources = path, crate, names, sources
        with open(path, encoding="utf-8") as f:
            text = f.read()
        self.head = "".join(re.findall(r"^--[^\n]*\n", text[: text.find("\nuse ") + 1], re.M))
        text = re.sub(r"^use [^\n]*\{\n[^}]*\}", lambda m: re.sub(r"\s*\n\s*", "", m.group(0)).replace(",}", "}").replace(",", ", "), text, flags=re.M)
        self.uses = re.findall(r"^use (.*)$", text, re.M)
        body = re.sub(r"^use .*\n", "", text[len(self.head):], flags=re.M)
        body = re.sub(r"^--[^\n]*\n", "", body, flags=re.M)
        self.blocks = [it.strip("\n") for it in re.split(r"\n\s*\n", body) if it.strip()]
        self.module = os.path.dirname(os.path.relpath(path, f"crates/{crate}/proofs")).replace("/", ".")
        self.cycle = os.path.basename(os.path.dirname(path)).startswith("+")
        self.made = {}
        self.invariants, self.answers, self.own = [], [], []

    def goals(self, alias):
        if not self.cycle:
            key = f"Rattle-{self.crate}-proofs.{self.module}.Lts"
            name = self.module.split(".")[-1]
        else:
            modules = [it.split(" as ")[0] for it in self.uses if it.endswith(" as " + alias)]
            if not modules:
                raise Left(f"no module for {alias}")
            key = f"Rattle-{self.crate}-proofs." + modules[0].split(".proofs.", 1)[1]
            name = modules[0].split("Lts-")[1]
        if key not in self.made:
            if key not in self.names:
                raise Left(f"{key} is not listed")
            self.made[key] = (Goals(self.names[key]), name)
        return self.made[key]

    def read(self):
        for block in self.blocks:
            match = DECLARED.match(block)
            if not match:
                raise Left("not read: " + block[:60])
            before, name, kind, opened, args, term = match.groups()
            self.declared(block, name, kind, opened.strip(), args, term.strip())

    def declared(self, block, name, kind, opened, args, term):
        if "statement" in kind or re.match(r"ℕ → (In|[\w-]+\.Claims)", kind):
            return
        measure = re.match(r"Measures \d+ (\S+)-kinds\.ps ℕ", kind)
        if measure:
            return self.measure(measure.group(1), args, term)
        loop = re.match(r"(\S+)\.(invariant|decreases)-(loop\S*)$", kind)
        if loop:
            return self.loop(loop.group(1), loop.group(2), loop.group(3), args, term)
        need = re.search(r"(?:^|\s)(\S+)\.Need-(\S+)", kind)
        if not need:
            self.own.append(block)
            return
        goals, function = self.goals(need.group(1))
        i = goals.find(need.group(2))
        if term == "search rules" and not opened:
            return
        label = goals.stem + goals.needs[i][1]
        clauses = clauses_of(self.sources, function)
        term = cited(term, goals, i, clauses)
        lines = [f"pub {label} : goal.{label}"] + [opened] * bool(opened)
        self.answers.append("\n".join(lines + [f"{label} {'t ' if self.cycle else ''}c = {term}"]))

    def loop(self, alias, what, label, args, term):
        goals, function = self.goals(alias)
        new, variables, changed = goals.loop(label)
        first = [("l.initial." if moved else "l.") + v for v, moved in zip(variables, changed)]
        second = ["l." + v for v, moved in zip(variables, changed) if moved]
        names = args.split()
        if len(names) != len(first) + len(second):
            raise Left(f"{label} has {len(names)} parameters and not {len(first) + len(second)}")
        term = put(term, dict(zip(names, first + second)))
        label = f"{what}-{goals.stem}{new}"
        self.invariants.append(f"abbrev pub {label} : goal.{label}\n{label} l = {term}")

    def measure(self, alias, args, term):
        modules = [it.split(" as ")[0] for it in self.uses if it.endswith(f" as {alias}-kinds")]
        path = modules[0].split(".proofs.", 1)[1].rsplit(".", 1)[0]
        params = None
        for entry in filter(lambda it: isinstance(it, dict), self.names.values()):
            for function, names in entry.get("params", {}).items():
                if function.endswith("::" + path.replace(".", "::")) and function.startswith(self.crate + "::"):
                    params = names
        if params is None:
            raise Left(f"no parameters of {path}")
        def one(match):
            steps = match.group(1).split(".")[1:]
            at = 0
            while steps and steps[0] == "1" and at < len(params) - 1:
                at += 1
                steps = steps[1:]
            if steps and steps[0] == "0":
                steps = steps[1:]
            return "l." + ".".join([params[at], *steps])
        term = re.sub(r"(?<![\w.'-])a((?:\.[\w'-]+)+)", one, term)
        label = "decreases-" + path.split(".")[-1]
        self.invariants.append(f"abbrev pub {label} : goal.{label}\n{label} l = {term}")

    def imports(self, text):
        used = set(re.findall(r"[^\s(){}\[\],;.]+", text))
        parts = set()
        for word in used:
            parts.add(word)
        lines = []
        for use in self.uses:
            items = re.match(r"(.*)\.\{(.*)\}$", use)
            if not items:
                if not MADE.search(use.split(" as ")[0]):
                    lines.append(f"use {use}")
                continue
            if MADE.search(items.group(1)):
                continue
            kept = []
            for item in items.group(2).split(","):
                item = item.strip()
                name = item.split(" as ")[-1]
                if name in used or "◌" in name and all(it in used for it in name.split("◌") if it):
                    kept.append(item)
            if kept:
                lines.append(f"use {items.group(1)}.{{{', '.join(kept)}}}")
        return "".join(line + "\n" for line in lines)

    def write(self):
        folder = os.path.dirname(self.path)
        for name, given, blocks in (("Invariants", "Given", self.invariants), ("Answers", "Goals", self.own + self.answers)):
            if not blocks or name == "Answers" and not self.answers:
                continue
            body = "\n\n".join(blocks)
            head = self.head if name == "Answers" or not self.answers else ""
            text = head + self.imports(body) + f"use Rattle.{self.crate}.proofs.{self.module}.{given} as goal\n\n{body}\n"
            with open(os.path.join(folder, name + ".antt"), "w", encoding="utf-8") as f:
                f.write(text)
        os.remove(self.path)
        while not os.listdir(folder):
            os.rmdir(folder)
            folder = os.path.dirname(folder)


def main():
    names, crates = sys.argv[1], sys.argv[2:] or sorted(os.listdir("crates"))
    done = left = 0
    for crate in crates:
        with open(f"{names}/crates/{crate}/names.json", encoding="utf-8") as f:
            listed = json.load(f)
        sources = ""
        for path in glob.glob(f"crates/{crate}/src/**/*.rt", recursive=True):
            with open(path, encoding="utf-8") as f:
                sources += f.read()
        for path in sorted(glob.glob(f"crates/{crate}/proofs/**/Proof.antt", recursive=True)):
            try:
                file = File(path, crate, listed, sources)
                file.read()
            except Left as e:
                print(f"left: {path}: {e}")
                left += 1
                continue
            file.write()
            done += 1
    print(f"{done} turned, {left} left")


if __name__ == "__main__":
    main()
