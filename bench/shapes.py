"""Graphs drawn at random for the hunt: a form and its size, directions, labels and properties.

A form is a name, a number of nodes and the pairs that its edges join. What a graph is like is drawn without regard to any engine.
"""

import graphs

MOST_EDGES = 200
KEYS = 1, 2
LABELS = 1, 2


def chance(draw, of_hundred):
    return draw.below(100) < of_hundred


def between(draw, least, most):
    return least + draw.below(most - least + 1)


def one_of(draw, choices):
    return choices[draw.below(len(choices))]


# ---------------------------------------------------------------- forms
def line(draw):
    edges = between(draw, 7, 199)
    return f"line of {edges}", edges + 1, [(node, node + 1) for node in range(edges)]


def line_with_shortcuts(draw):
    """Some nodes lead to the next but one as well."""
    edges = between(draw, 7, 150)
    shortcuts = [(node, node + 2) for node in range(edges - 1) if chance(draw, 30)]
    return f"line of {edges} with shortcuts", edges + 1, ([(node, node + 1) for node in range(edges)] + shortcuts)[:MOST_EDGES]


def cycle(draw):
    nodes = between(draw, 8, 150)
    chords = [(draw.below(nodes), draw.below(nodes)) for _ in range(draw.below(6))]
    return f"cycle of {nodes} with {len(chords)} chords", nodes, [(node, (node + 1) % nodes) for node in range(nodes)] + chords


def grid(draw):
    width = between(draw, 2, 10)
    height = between(draw, (7 + width) // width, max((7 + width) // width, (MOST_EDGES + width) // (2 * width - 1)))
    across = [(node, node + 1) for node in range(width * height) if (node + 1) % width]
    down = [(node, node + width) for node in range(width * (height - 1))]
    return f"grid {width} by {height}", width * height, sorted(across + down)


def ladder(draw):
    """Parallel edges in a row."""
    width = between(draw, 2, 4)
    steps = between(draw, 7, MOST_EDGES // width)
    return f"ladder of {steps} steps, {width} edges each", steps + 1, [(node, node + 1) for node in range(steps) for _ in range(width)]


def diamonds(draw):
    """Paths that part into some nodes and meet again, in a row."""
    width = between(draw, 2, 4)
    count = between(draw, 3, MOST_EDGES // (2 * width))
    pairs = []
    for number in range(count):
        first, last = number * (width + 1), (number + 1) * (width + 1)
        pairs += [(first, first + i) for i in range(1, width + 1)] + [(first + i, last) for i in range(1, width + 1)]
    return f"{count} diamonds of width {width}", count * (width + 1) + 1, pairs


def complete(draw):
    if chance(draw, 50):
        nodes = between(draw, 8, 20)
        return f"complete, {nodes} nodes", nodes, [(a, b) for a in range(nodes) for b in range(a + 1, nodes)]
    nodes = between(draw, 8, 14)
    return f"complete both ways, {nodes} nodes", nodes, [(a, b) for a in range(nodes) for b in range(nodes) if a != b]


def random(draw, nodes, edges):
    return nodes, [(draw.below(nodes), draw.below(nodes)) for _ in range(edges)]


def sparse(draw):
    nodes = between(draw, 16, 200)
    edges = min(MOST_EDGES, nodes * between(draw, 8, 20) // 10)
    return f"random sparse, {nodes} nodes", *random(draw, nodes, edges)


def dense(draw):
    nodes = between(draw, 8, 50)
    edges = min(MOST_EDGES, nodes * between(draw, 25, 80) // 10)
    return f"random dense, {nodes} nodes", *random(draw, nodes, edges)


FORMS = line, line_with_shortcuts, cycle, grid, ladder, diamonds, complete, sparse, dense


# ---------------------------------------------------------------- directions, labels, properties
def directed(draw, graph, pairs):
    """How the edges are directed; both kinds of edges at times."""
    how = one_of(draw, ["directed", "directed", "directed", "undirected", "undirected", "turned at random", "directed or not"])
    for first, second in pairs:
        if how == "turned at random" and chance(draw, 50):
            first, second = second, first
        graph.edge(first, second, 0 if how == "undirected" or how == "directed or not" and chance(draw, 50) else 1)
    return how


def labelled(draw, graph):
    for element in range(graph.nodes + len(graph.edges)):
        if chance(draw, 80):
            graph.labels.append((element, one_of(draw, LABELS)))


def valued(draw, graph, key):
    """The values of a key: few or many, each element its own, or one for all; for a part of the elements none at times."""
    elements = graph.nodes + len(graph.edges)
    values = one_of(draw, [1, 2, 3, 8, elements // 4, 4 * elements, "own"])
    absent = one_of(draw, [0, 0, 10, 50])
    for element in range(elements):
        value = element if values == "own" else draw.below(values)
        if not chance(draw, absent):
            graph.properties.append((element, key, value))
    return f"{values} value{'' if values == 1 else 's'}" + (f", {absent} % absent" if absent else "")


def shape(draw):
    """A graph and what it is."""
    name, nodes, pairs = one_of(draw, FORMS)(draw)
    graph = graphs.Graph(nodes)
    how = directed(draw, graph, pairs)
    said = [f"{name}, {len(pairs)} edges", how]
    if chance(draw, 40):
        labelled(draw, graph)
        said.append("labelled")
    said += [f"key {key}: {valued(draw, graph, key)}" for key in KEYS]
    return graph, "; ".join(said)
