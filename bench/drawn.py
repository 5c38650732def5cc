"""Patterns drawn at random for the hunt: a theme, and within it steps, labels, counts, variables and conditions.

A pattern may be refused, and then another is drawn. Nothing is drawn with regard to any engine.
"""

from patterns import (AND, BACKWARD, CONCATENATION, CONDITIONED, EQUALS, FORWARD, NODE, NOT, OR, REPETITION, SAME, UNBOUNDED, UNDIRECTED,
                      UNION, Table)
from shapes import KEYS, LABELS, between, chance, one_of

VARIABLES = 8
STRANGE = 60000  # a value that no element has


class Drawn(Table):
    """A table as it is drawn, with the variables used so far."""

    def __init__(self, draw, graph):
        super().__init__()
        self.draw, self.graph = draw, graph
        self.nodes, self.edges = [], []  # variables
        self.kinds = self.ways({directed for _, _, directed in graph.edges})

    def ways(self, directions):
        """The kinds of edges that the pattern asks for."""
        along = one_of(self.draw, [[FORWARD], [FORWARD], [FORWARD], [BACKWARD], [FORWARD, BACKWARD]])
        return (along if 1 in directions else []) + ([UNDIRECTED] if 0 in directions else [])

    def chance(self, of_hundred):
        return chance(self.draw, of_hundred)

    def fresh(self, sort):
        """A variable that is not used yet, 0 where all are."""
        variable = len(self.nodes) + len(self.edges) + 1
        if variable > VARIABLES:
            return 0
        sort.append(variable)
        return variable

    def label(self):
        return one_of(self.draw, LABELS) if self.graph.labels and self.chance(25) else 0

    # ------------------------------------------------------------ pieces; each gives its row
    def node(self, variable=0):
        return self.row(NODE, variable, self.label())

    def step(self, variable=0):
        """An edge; where edges of several kinds are asked for, mostly any of them."""
        kinds = self.kinds if self.chance(70) else [one_of(self.draw, self.kinds)]
        return self.chain(UNION, [self.row(kind, variable, self.label()) for kind in kinds])

    def chain(self, kind, rows):
        whole = rows[0]
        for row in rows[1:]:
            whole = self.row(kind, whole, row)
        return whole

    def join(self, *rows):
        return self.chain(CONCATENATION, rows)

    def repeat(self, body):
        how, draw = self.draw.below(100), self.draw
        least, most = 1, UNBOUNDED
        if how >= 88:
            least = between(draw, 5, 40)
        elif how >= 75:
            least = most = between(draw, 2, 12)
        elif how >= 60:
            least = draw.below(4)
            most = between(draw, max(least, 1), least + 6)
        elif how >= 45:
            least = 0
        return self.row(REPETITION, body, 0, least, most)

    def hop(self, group=25):
        """A step repeated, with the group of its edges at times."""
        return self.repeat(self.step(self.fresh(self.edges) if self.chance(group) else 0))

    # ------------------------------------------------------------ conditions
    def constant(self, variable):
        """A value that an element of the sort has, at times one that none has."""
        key, is_node = one_of(self.draw, KEYS), variable in self.nodes
        held = [value for element, k, value in self.graph.properties if k == key and (element < self.graph.nodes) == is_node]
        return self.negated(self.row(EQUALS, variable, key, one_of(self.draw, held) if held and self.chance(90) else STRANGE))

    def same(self, first, second):
        key = one_of(self.draw, KEYS)
        return self.negated(self.row(SAME, first, key, second, key if self.chance(85) else one_of(self.draw, KEYS)))

    def negated(self, row):
        return self.row(NOT, row) if self.chance(8) else row

    def where(self, row, *conditions):
        if not conditions:
            return row
        return self.row(CONDITIONED, row, self.chain(OR if self.chance(8) else AND, conditions))

    def given(self, *variables):
        """Constants for some of them."""
        return [self.constant(variable) for variable in variables if variable and self.chance(65)]

    def ended(self, row):
        """At times from and to nodes that are given."""
        if not self.chance(40):
            return row
        first, last = self.fresh(self.nodes), self.fresh(self.nodes)
        return self.where(self.join(self.node(first), row, self.node(last)), *self.given(first, last))


# ---------------------------------------------------------------- themes; each gives the row of the whole
def ends_given(t):
    first, last = t.fresh(t.nodes), t.fresh(t.nodes)
    return t.where(t.join(t.node(first), t.hop(), t.node(last)), *t.given(first, last))


def ends_compared(t):
    first, last = t.fresh(t.nodes), t.fresh(t.nodes)
    row = t.join(t.node(first), t.hop(), t.node(last))
    return t.where(row, t.same(first, last), *(t.given(first) if t.chance(20) else []))


def middle_compared(t):
    """Two nodes on the way."""
    first, last = t.fresh(t.nodes), t.fresh(t.nodes)
    row = t.join(t.hop(), t.node(first), t.hop(), t.node(last), *([t.hop()] if t.chance(50) else []))
    return t.ended(t.where(row, t.same(first, last)))


def edges_compared(t):
    """The first edge and the last."""
    first, last = t.fresh(t.edges), t.fresh(t.edges)
    return t.ended(t.where(t.join(t.step(first), t.hop(), t.step(last)), t.same(first, last)))


def body_compared(t):
    """A repetition whose body compares two nodes or two edges."""
    sort = one_of(t.draw, [t.nodes, t.edges])
    first, last = t.fresh(sort), t.fresh(sort)
    if sort is t.nodes:
        row = t.join(t.node(first), *[t.step() for _ in range(between(t.draw, 1, 3))], t.node(last))
    else:
        row = t.join(t.step(first), *[t.step() for _ in range(t.draw.below(2))], t.step(last))
    return t.ended(t.repeat(t.where(row, t.same(first, last))))


def twice(t):
    """A variable that stands twice: cycles, and paths that come back on their way."""
    first, other = t.fresh(t.nodes), t.fresh(t.nodes)
    rows = [t.node(first), t.hop(), *([t.node(other), t.hop()] if t.chance(40) else []), t.node(first)]
    if t.chance(30):
        rows = [t.hop(), *rows] if t.chance(50) else [*rows, t.hop()]
    return t.where(t.join(*rows), *(t.given(first) if t.chance(30) else []))


def groups(t):
    """Several groups, one after another."""
    return t.ended(t.join(*[t.hop(80) for _ in range(between(t.draw, 2, 6))]))


def nested(t):
    """A repetition of repetitions, with groups and comparisons at times."""
    body = [t.hop(50), t.step(t.fresh(t.edges) if t.chance(50) else 0)]
    if t.chance(40):
        first, last = t.fresh(t.nodes), t.fresh(t.nodes)
        body = [t.where(t.join(t.node(first), *body, t.node(last)), *([t.same(first, last)] if t.chance(50) else t.given(first, last)))]
    return t.ended(t.repeat(t.join(*body)))


def unions(t):
    """A repetition of a union of parts of one to three steps."""
    parts = []
    for _ in range(between(t.draw, 2, 3)):
        variable = t.fresh(t.edges) if t.chance(40) else 0
        parts.append(t.join(t.step(variable), *[t.step() for _ in range(t.draw.below(3))]))
    return t.ended(t.repeat(t.chain(UNION, parts)))


def piece(t, depth):
    """Anything that the rows allow, and some of what they do not."""
    how = t.draw.below(100) if depth else 0
    if how < 30:
        again = one_of(t.draw, t.edges) if t.edges and t.chance(5) else 0
        return t.step(again or (t.fresh(t.edges) if t.chance(40) else 0))
    if how < 45:
        again = one_of(t.draw, t.nodes) if t.nodes and t.chance(15) else 0
        return t.join(t.node(again or t.fresh(t.nodes)), piece(t, depth - 1))
    if how < 65:
        return t.join(piece(t, depth - 1), piece(t, depth - 1))
    if how < 75:
        return t.chain(UNION, [piece(t, depth - 1), piece(t, depth - 1)])
    row, known = piece(t, depth - 1), t.nodes + t.edges
    if how < 90 or not known:
        return t.repeat(row)
    return t.where(row, t.same(one_of(t.draw, known), one_of(t.draw, known)), *t.given(one_of(t.draw, known)))


def free(t):
    return t.ended(t.join(piece(t, 4), piece(t, 4)))


THEMES = ends_given, ends_compared, middle_compared, edges_compared, body_compared, twice, groups, nested, unions, free


def pattern(draw, graph):
    """The rows of a pattern."""
    table = Drawn(draw, graph)
    one_of(draw, THEMES)(table)
    return table.rows
