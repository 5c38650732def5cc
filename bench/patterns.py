"""The pattern tables of the cases: rows of kind, p, q, r, s."""

from graphs import FROM, HIGH, LEADS_TO, LEVELS, LOADED, LOW, MAP, PLACE, PRESENT, PROCESSOR, SERIAL, SIDE, TO

NODE, FORWARD, BACKWARD, UNDIRECTED, UNION, CONCATENATION, CONDITIONED, REPETITION = range(1, 9)
EQUALS, SAME, AND, OR, NOT = range(16, 21)
UNBOUNDED = 65535


class Table:
    """Rows as they are added; each call gives the number of its row."""

    def __init__(self):
        self.rows = []

    def row(self, kind, p=0, q=0, r=0, s=0):
        self.rows.append((kind, p, q, r, s))
        return len(self.rows) - 1

    def some(self, body, most=UNBOUNDED):
        return self.row(REPETITION, body, 0, 1, most)


def repeated(kind=FORWARD, variable=0, most=UNBOUNDED):
    """One step or more; with a variable, the group of the edges."""
    table = Table()
    table.some(table.row(kind, variable), most)
    return table.rows


def between():
    """From one place to another by one edge or more."""
    table = Table()
    start, step = table.row(NODE, 1), table.row(FORWARD)
    steps, goal = table.some(step), table.row(NODE, 2)
    path = table.row(CONCATENATION, table.row(CONCATENATION, start, steps), goal)
    places = table.row(AND, table.row(EQUALS, 1, PLACE, FROM), table.row(EQUALS, 2, PLACE, TO))
    table.row(CONDITIONED, path, places)
    return table.rows


def chains():
    """Every chain of maps that leads to the present one, as samples/chains.txt has it."""
    table = Table()
    chain = table.some(table.row(FORWARD, 1, LEADS_TO))
    last = table.row(NODE, 2, MAP)
    goal = table.row(CONDITIONED, last, table.row(EQUALS, 2, PRESENT, 1))
    table.row(CONCATENATION, chain, goal)
    return table.rows


def carried():
    """The processors that carried a map on its side, as samples/carried.txt has it."""
    table = Table()
    begin = table.row(CONCATENATION, table.row(NODE, 1, MAP), table.row(UNDIRECTED, 2, LOADED))
    whole = table.row(CONCATENATION, begin, table.row(NODE, 3, PROCESSOR))
    table.row(CONDITIONED, whole, table.row(SAME, 1, SIDE, 3, SIDE))
    return table.rows


def in_a_row(groups, variables):
    """Unbounded repetitions, one after the other; each with a variable of its own, or none with any."""
    table = Table()
    whole = None
    for number in range(groups):
        part = table.some(table.row(FORWARD, number + 1 if variables else 0))
        whole = part if whole is None else table.row(CONCATENATION, whole, part)
    return table.rows


def either(variable=0):
    """A repeated union of two equal parts, [-> + ->]."""
    table = Table()
    table.some(table.row(UNION, table.row(FORWARD, variable), table.row(FORWARD, variable)))
    return table.rows


def nested():
    """A repetition of a repetition."""
    table = Table()
    table.some(table.some(table.row(FORWARD)))
    return table.rows


def carried_by(serial):
    """The maps that the processor with this serial number carried."""
    table = Table()
    begin = table.row(CONCATENATION, table.row(NODE, 1, MAP), table.row(UNDIRECTED, 2, LOADED))
    whole = table.row(CONCATENATION, begin, table.row(NODE, 3, PROCESSOR))
    table.row(CONDITIONED, whole, table.row(EQUALS, 3, SERIAL, serial))
    return table.rows


def chains_to(last):
    """Every chain of maps that leads to the map of this variable; the group of its edges is variable 4."""
    table = Table()
    chain = table.some(table.row(FORWARD, 4, LEADS_TO))
    table.row(CONCATENATION, chain, table.row(NODE, last, MAP))
    return table.rows


def steps(*nodes):
    """Forward edges through nodes with these variables."""
    table = Table()
    whole = table.row(NODE, nodes[0])
    for variable in nodes[1:]:
        whole = table.row(CONCATENATION, whole, table.row(FORWARD))
        whole = table.row(CONCATENATION, whole, table.row(NODE, variable))
    return table.rows


def edges(*variables):
    """Forward edges with these variables, 0 none."""
    table = Table()
    whole = table.row(FORWARD, variables[0])
    for variable in variables[1:]:
        whole = table.row(CONCATENATION, whole, table.row(FORWARD, variable))
    return table.rows


def ray(label, end):
    """From the node of variable 1 by an edge with the label."""
    table = Table()
    begin = table.row(CONCATENATION, table.row(NODE, 1), table.row(FORWARD, 0, label))
    table.row(CONCATENATION, begin, table.row(NODE, end))
    return table.rows


def into(label, variable, most):
    """Up to so many edges into a node with the label."""
    table = Table()
    table.row(CONCATENATION, table.some(table.row(FORWARD), most), table.row(NODE, variable, label))
    return table.rows


def out_of(label, variable, most):
    """Up to so many edges out of a node with the label."""
    table = Table()
    begin = table.row(NODE, variable, label)
    table.row(CONCATENATION, begin, table.some(table.row(FORWARD), most))
    return table.rows


def joined_by(label, variable, most):
    """Up to so many edges with the label, from the node of one variable to that of the next."""
    table = Table()
    begin = table.row(CONCATENATION, table.row(NODE, variable), table.some(table.row(FORWARD, 0, label), most))
    table.row(CONCATENATION, begin, table.row(NODE, variable + 1))
    return table.rows


def levels(table, variable):
    """Seven levels are low or high, and the eighth is not 0: 30 rows that rule out no map."""
    whole = table.row(NOT, table.row(EQUALS, variable, LEVELS[-1], 0))
    for key in LEVELS[:-1]:
        either = table.row(OR, table.row(EQUALS, variable, key, LOW), table.row(EQUALS, variable, key, HIGH))
        whole = table.row(AND, whole, either)
    return whole


def to_levelled(serial, most):
    """Up to so many edges to a map with any levels and this serial number: of the condition the right part is the narrow one."""
    table = Table()
    path = table.row(CONCATENATION, table.some(table.row(FORWARD), most), table.row(NODE, 1))
    left = levels(table, 1)
    table.row(CONDITIONED, path, table.row(AND, left, table.row(EQUALS, 1, SERIAL, serial)))
    return table.rows
