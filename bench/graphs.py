"""The graphs of the cases, and the image of a graph as include/gpc.h takes it."""

import struct
from dataclasses import dataclass, field

from seeded import Seeded

MAP, PROCESSOR, SESSION, LEADS_TO, LOADED, MADE = range(1, 7)  # labels of a fitting record
PRESENT, SIDE, SERIAL = 1, 2, 3  # its keys
LEVELS = range(11, 19)  # the keys of a map's levels, one for each electrode
LOW, HIGH = 100, 101  # what a level can be
PLACE = 1  # the key of a node's place in a random graph
FROM, TO = 1, 2  # the two places that are asked for
RAYS = range(1, 5)  # labels of the edges of a star
LEFT, RIGHT = 1, 2  # labels of the nodes of a graph with two sides
RED, BLUE = 1, 2  # labels of the edges of a coloured graph


@dataclass
class Graph:
    nodes: int
    edges: list = field(default_factory=list)  # first end, second end, direction
    labels: list = field(default_factory=list)  # element, label
    properties: list = field(default_factory=list)  # element, key, value

    def edge(self, first, second, directed=1, label=0):
        if not directed and first > second:
            first, second = second, first
        if label:
            self.labels.append((self.nodes + len(self.edges), label))
        self.edges.append((first, second, directed))

    def image(self):
        sections = [[(node,) for node in range(self.nodes)], self.edges, sorted(self.labels), sorted(self.properties)]
        bodies = [b"".join(struct.pack(f"<{len(row)}H", *row) for row in rows) for rows in sections]
        directory, at = b"", 16
        for body in bodies:
            directory += struct.pack("<2H", at, len(body))
            at += len(body)
        return directory + b"".join(bodies)

    def steps(self):
        """Each way to walk an edge: from, to, edge, and the edge's label. A loop is walked one way."""
        label = dict(self.labels)
        for number, (first, second, directed) in enumerate(self.edges):
            yield first, second, number, label.get(self.nodes + number, 0)
            if not directed and first != second:
                yield second, first, number, label.get(self.nodes + number, 0)

    def holder(self, key, value):
        """The one element with this property."""
        return next(element for element, k, v in self.properties if (k, v) == (key, value))


def random_graph(seed, nodes, edges):
    draw = Seeded(seed)
    graph = Graph(nodes)
    for _ in range(edges):
        graph.edge(draw.below(nodes), draw.below(nodes))
    return graph, draw


def flights(seed):
    """Directed, 100 nodes, 200 edges; two different nodes have the places that are asked for (document 004, GDB2)."""
    graph, draw = random_graph(seed, 100, 200)
    start = draw.below(100)
    goal = start
    while goal == start:
        goal = draw.below(100)
    graph.properties = [(start, PLACE, FROM), (goal, PLACE, TO)]
    return graph


def line(edges):
    graph = Graph(edges + 1)
    for node in range(edges):
        graph.edge(node, node + 1)
    return graph


def grid(width, directed):
    graph = Graph(width * width)
    for node in range(width * width):
        if (node + 1) % width:
            graph.edge(node, node + 1, directed)
        if node + width < width * width:
            graph.edge(node, node + width, directed)
    return graph


def parallel(edges):
    graph = Graph(2)
    for _ in range(edges):
        graph.edge(0, 1)
    return graph


def fitting(seed, shortcuts):
    """A fitting record of 200 nodes and 200 edges: 100 maps, each made out of the one before, 60 processors, 40 sessions.

    So many maps lead to the next but one as well: there chains part and meet again. The last map is the present one.
    """
    draw = Seeded(seed)
    graph = Graph(200)
    for node in range(200):
        graph.labels.append((node, MAP if node < 100 else PROCESSOR if node < 160 else SESSION))
        if node < 160:
            graph.properties.append((node, SIDE, 1 + draw.below(2)))
    graph.properties.append((99, PRESENT, 1))
    for node in range(99):
        graph.edge(node, node + 1, label=LEADS_TO)
    for number in range(shortcuts):
        node = (number + 1) * 100 // (shortcuts + 1)
        graph.edge(node, node + 2, label=LEADS_TO)
    for session in range(160, 200):
        graph.edge(session, draw.below(100), label=MADE)
    while len(graph.edges) < 200:
        graph.edge(draw.below(100), 100 + draw.below(60), directed=0, label=LOADED)
    return graph


def numbered(seed, shortcuts):
    """The same, and every processor has a serial number: its place among the nodes."""
    graph = fitting(seed, shortcuts)
    graph.properties += [(node, SERIAL, node) for node in range(100, 160)]
    return graph


def levelled(seed):
    """A random graph of 100 maps and 200 edges; each map has its levels, and its place among the nodes as its serial number."""
    graph, draw = random_graph(seed, 100, 200)
    for node in range(100):
        graph.properties += [(node, key, LOW + draw.below(2)) for key in LEVELS] + [(node, SERIAL, node)]
    return graph


def star(seed):
    """Forty centres, each with an edge or two of each of four labels into the other 160 nodes."""
    draw = Seeded(seed)
    graph = Graph(200)
    for label in RAYS:
        for centre in range(40):
            graph.edge(centre, 40 + draw.below(160), label=label)
        for _ in range(10):
            graph.edge(draw.below(40), 40 + draw.below(160), label=label)
    return graph


def sided(seed):
    """A random graph of 60 nodes and 150 edges; every node is on one side, and two to which or from which few paths lead are on both."""
    graph, draw = random_graph(seed, 60, 150)
    for node in range(60):
        graph.labels.append((node, LEFT if node % 2 else RIGHT))
    for node in (5, 56):
        graph.labels.append((node, LEFT if node % 2 == 0 else RIGHT))
    return graph


def coloured(seed):
    """A random graph of 60 nodes and 200 edges, each red or blue."""
    draw = Seeded(seed)
    graph = Graph(60)
    for _ in range(100):
        for label in RED, BLUE:
            graph.edge(draw.below(60), draw.below(60), label=label)
    return graph
