"""An input of the listing program, and its pattern as text: what the hunt saves and reports."""

import struct
from dataclasses import dataclass

from patterns import AND, BACKWARD, CONCATENATION, CONDITIONED, EQUALS, FORWARD, NODE, NOT, REPETITION, SAME, UNBOUNDED, UNDIRECTED, UNION

RESTRICTORS = {1: "trail", 2: "simple", 3: "shortest trail", 4: "shortest simple"}
LEAVES = NODE, FORWARD, BACKWARD, UNDIRECTED


@dataclass
class Input:
    image: bytes
    rows: list
    restrictor: int

    def bytes(self):
        words = [word for row in self.rows for word in row]
        return struct.pack("<3H", len(self.image), len(words), self.restrictor) + self.image + struct.pack(f"<{len(words)}H", *words)

    def size(self):
        """Nodes and edges, by the lengths of their sections."""
        directory = struct.unpack("<8H", self.image[:16])
        return f"{directory[1] // 2} nodes, {directory[3] // 6} edges"


def read(data):
    """An input as it was saved."""
    size, words, restrictor = struct.unpack("<3H", data[:6])
    numbers = struct.unpack(f"<{words}H", data[6 + size:6 + size + 2 * words])
    return Input(data[6:6 + size], [tuple(numbers[at:at + 5]) for at in range(0, words, 5)], restrictor)


# ---------------------------------------------------------------- text, in the paper's notation as far as letters have it
def leaf(kind, variable, label):
    inner = (f"x{variable}" if variable else "") + (f":{label}" if label else "")
    if inner:
        return {NODE: "({})", FORWARD: "-[{}]->", BACKWARD: "<-[{}]-", UNDIRECTED: "~[{}]~"}[kind].format(inner)
    return {NODE: "()", FORWARD: "->", BACKWARD: "<-", UNDIRECTED: "~"}[kind]


def condition(rows, at):
    kind, p, q, r, s = rows[at]
    if kind == EQUALS:
        return f"x{p}.{q} = {r}"
    if kind == SAME:
        return f"x{p}.{q} = x{r}.{s}"
    if kind == NOT:
        return f"not ({condition(rows, p)})"
    return f"({condition(rows, p)} {'and' if kind == AND else 'or'} {condition(rows, q)})"


def pattern(rows, at=-1):
    kind, p, q, r, s = rows[at]
    if kind in LEAVES:
        return leaf(kind, p, q)
    if kind == UNION:
        return f"[{pattern(rows, p)} + {pattern(rows, q)}]"
    if kind == CONCATENATION:
        return f"{pattern(rows, p)} {pattern(rows, q)}"
    if kind == CONDITIONED:
        return f"[{pattern(rows, p)}]<{condition(rows, q)}>"
    return f"[{pattern(rows, p)}]{{{r}..{'' if s == UNBOUNDED else s}}}"


# ---------------------------------------------------------------- what a pattern asks for
def below(rows, at):
    """The variables of the leaves below a row."""
    kind, p, q, _, _ = rows[at]
    if kind in LEAVES:
        return {p} - {0}
    return below(rows, p) | (below(rows, q) if kind in (UNION, CONCATENATION) else set())


def compares(rows):
    """Whether it compares two elements: two variables under one equality, or one variable that stands twice."""
    return any(kind == SAME and p != r or kind == CONCATENATION and below(rows, p) & below(rows, q) for kind, p, q, r, _ in rows)


def has_groups(rows):
    return any(kind == REPETITION and below(rows, p) for kind, p, _, _, _ in rows)


def asks(rows):
    found = [what for what, holds in (("compares", compares(rows)), ("groups", has_groups(rows))) if holds]
    return " and ".join(found) or "neither"
