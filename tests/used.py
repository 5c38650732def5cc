"""Every lemma, definition and function has a user, and so has every name that a file imports.

A declaration of Antt is used if the code or its proofs lead to it: from the contracts in the sources, from each function's proof, from
the examples, and from each result that docs/THEOREMS.md quotes, through every declaration that names another. A function, a struct or
a constant of Rattle is used if something outside it names it, an exported one if C can call it. What nothing leads to is printed.
A crate that neither the archive nor a program stands on yet is groundwork: what it makes public counts as used, and so does what stands
in the theory that only groundwork cites.
"""

import os
import re
import sys

ROOT = os.path.dirname(os.path.dirname(os.path.abspath(__file__)))
IMPORT = re.compile(r"(?ms)^(?:pub )?use .*?(?:\}|$)")
OURS = re.compile(r"(?s)(?:pub |ghost )?use Rattle\.(\w+)\.(specs|proofs)\.([^{\s]+?)(?:\.\{(.*)\}| as (\S+))?\s*$")
TACTIC = re.compile(r"(?s)#!?\[tactic\((.*?)\)\]")
SIGNATURE = re.compile(r"^( *)(?:unfoldable |abbrev )*(pub )?(?:data |record )?(\S+)")
ITEM = re.compile(r"(?m)^( *)pub (?:extern \"C\" )?(?:fn|struct|enum|const) (\w+)")
OF_CODE = ("Proof", "Answers", "Invariants")
EXAMPLES = ("Examples", "QueryExamples", "Rules")
TOPS = ("gpc_c", "listing", "examples")


def groundwork():
    """The crates that no archive and no program stands on."""
    needs = {}
    for line in open(os.path.join(ROOT, "crates.txt")):
        name, found, rest = line.split("#")[0].partition(":")
        if found:
            needs[name.split()[0]] = rest.split()
    used, queue = set(), list(TOPS)
    while queue:
        name = queue.pop()
        if name not in used:
            used.add(name)
            queue += needs.get(name, [])
    return set(needs) - used


def files(ending):
    for folder, folders, names in os.walk(os.path.join(ROOT, "crates")):
        folders[:] = [name for name in folders if name not in ("must-fail", "out")]
        for name in sorted(names):
            if name.endswith(ending):
                yield os.path.join(folder, name)


def tokens(text):
    found = set()
    for piece in re.split(r"[\s(){},;\"]+", text):
        found.add(piece)
        found.update(re.split(r"[.\[\]|λ]", piece))
        found.add(piece.strip(".λ"))
    return found


def spelled(name):
    """How a use of the name is told: an operator by its first part that is no place for an operand."""
    return next(part for part in name.split("◌") if part)


class File:
    """A file of Antt: what it imports, and its declarations with their texts."""

    def __init__(self, path):
        self.imports, self.aliases, self.declared, self.public = {}, {}, {}, set()
        self.types = {}
        text = re.sub(r"--.*", "", open(path).read())
        for use in IMPORT.findall(text):
            self.read_import(use)
        self.read_declarations(IMPORT.sub("", text))
        self.spelt = {spelled(name): name for name in self.declared}

    def read_import(self, use):
        ours = OURS.match(use)
        if ours and ours.group(5):
            self.aliases[ours.group(5)] = ours.group(1, 2, 3)
            return
        names = re.search(r"\{(.*)\}", use, re.S)
        for item in filter(str.strip, names.group(1).split(",") if names else ()):
            name, _, new = item.strip().partition(" as ")
            self.imports[new or name] = (*ours.group(1, 2, 3), name) if ours else None

    def read_declarations(self, text):
        current, indent = "", -1
        for line in text.split("\n"):
            words = line.split()
            if not words or words[0] in ("infix", "infixl", "infixr", "mod") or "pub mod" in line:
                continue
            deep = len(line) - len(line.lstrip())
            if words[0] in ("module", "mutual") or words[:2] == ["unfoldable", "mutual"]:
                current, indent = "module", deep
            elif current == "module" and deep > indent and words[0][0] in "(→":
                pass
            elif deep <= indent and (words[0] == "unfolding" or words[0][0] in "})(") or current not in ("", "module") and deep > indent:
                pass
            else:
                public, current, indent = SIGNATURE.match(line).group(2), SIGNATURE.match(line).group(3), deep
                if public:
                    self.public.add(current)
                if re.search(r"\b(data|record) " + re.escape(current), line):
                    self.types[current] = True
            self.declared[current] = self.declared.get(current, "") + "\n" + line


class Tree:
    def __init__(self):
        self.files = {}
        for path in files(".antt"):
            crate, kind, module = re.match(r".*/crates/([^/]+)/(specs|proofs)/(.*)\.antt$", path).groups()
            self.files[(crate, kind, module.replace("/", "."))] = File(path)
        self.reached, self.queue = set(), []

    def origin(self, where):
        """The declaration that an import names; a constructor and a field stand for their type."""
        file = self.files.get(where[:3])
        if not file:
            return []
        if where[3] in file.declared:
            return [(where[:3], where[3])]
        return [(where[:3], name) for name in file.types if where[3] in tokens(file.declared[name])]

    def reach(self, nodes):
        for node in nodes:
            if node not in self.reached:
                self.reached.add(node)
                self.queue.append(node)

    def follow(self):
        while self.queue:
            key, name = self.queue.pop()
            if key[2].endswith("Opened"):
                continue  # what is only opened for proofs is not used by them
            file, text = self.files[key], self.files[key].declared[name]
            said = tokens(text)
            self.reach((key, file.spelt[t]) for t in said & set(file.spelt))
            for new, where in file.imports.items():
                if where and spelled(new) in said:
                    self.reach(self.origin(where))
            for alias, where in file.aliases.items():
                for used in re.findall(re.escape(alias) + r"\.([^\s(){}\[\],;.]+)", text):
                    self.reach(self.origin((*where, used)))

    def roots(self, quoted):
        early = groundwork()
        for key, file in self.files.items():
            whole = key[2].split(".")[-1] in (*OF_CODE, *EXAMPLES)
            shown = file.public if key[0] in early else ()
            self.reach((key, n) for n in file.declared if whole or n == "module" or n in quoted or n in shown)
        for path in files(".rt"):
            text = open(path).read()
            for use in re.findall(r"(?s)ghost use .*?;", text):
                ours = OURS.match(use.rstrip(";"))
                for item in filter(str.strip, ours.group(4).split(",") if ours else ()):
                    self.reach(self.origin((*ours.group(1, 2, 3), item.split()[0])))
            for crate, kind, module, name in re.findall(r"(\w+)::(specs|proofs)::([\w:]+)::(\S+?)[,)]", " ".join(TACTIC.findall(text)) + ")"):
                crate = os.path.relpath(path, ROOT).split(os.sep)[1] if crate == "crate" else crate
                self.reach(self.origin((crate, kind, module.replace("::", "."), name)))


def unused_antt(quoted):
    tree = Tree()
    tree.roots(quoted)
    tree.follow()
    for key, file in sorted(tree.files.items()):
        for name in file.declared:
            if name not in ("", "module") and (key, name) not in tree.reached:
                yield f"nothing uses {name} of crates/{key[0]}/{key[1]}/{key[2].replace('.', '/')}.antt"
        said = tokens("\n".join(file.declared.values()))
        for name in file.imports:
            if not {spelled(name), name} & said:
                yield f"imported for nothing: {name} in crates/{key[0]}/{key[1]}/{key[2].replace('.', '/')}.antt"


def unused_rattle():
    text = {path: re.sub(r"//.*", "", open(path).read()) for path in files(".rt")}
    uses = {path: re.sub(r"(?m)^(?:pub )?use .*;$", "", source) for path, source in text.items()}
    early = groundwork()
    for path, source in text.items():
        if os.path.relpath(path, ROOT).split(os.sep)[1] in early:
            continue
        exported = {name for _, name in re.findall(r"(?m)^( *)pub extern \"C\" fn (\w+)", source)}
        for _, name in ITEM.findall(source):
            count = sum(len(re.findall(r"\b" + name + r"\b", s)) for s in uses.values())
            if count < 2 and name not in exported | {"main"}:
                yield f"nothing uses {name} of {os.path.relpath(path, ROOT)}"


def main():
    document = open(os.path.join(ROOT, "docs/THEOREMS.md")).read()
    quoted = set(re.findall(r"(?m)^`([^`]+)`, \S+\.antt:$", document))
    found = list(unused_antt(quoted)) + list(unused_rattle())
    for line in found:
        print(line)
    return 1 if found else 0


if __name__ == "__main__":
    sys.exit(main())
