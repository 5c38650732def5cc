"""What libraries of graph algorithms can express: all simple or all shortest paths from some nodes to others, in a graph without labels.

Each case is written as numbers, for igraph_paths.c and graph_tool_paths.py; igraph_paths.c says in which order.
"""

from dataclasses import dataclass, field, replace

import graphs
import walks


@dataclass
class Search:
    nodes: int
    edges: list
    starts: list
    ends: list = field(default_factory=list)  # none: every node
    directed: bool = True
    shortest: bool = False
    most: int = 0  # edges of a path; 0 no bound
    besides: int = 0  # answers that are no path of one edge or more here

    def text(self):
        head = self.nodes, len(self.edges), self.directed, self.shortest, self.most, len(self.starts), len(self.ends)
        lines = [head, self.starts, self.ends, *self.edges]
        return "\n".join(" ".join(str(int(number)) for number in line) for line in lines) + "\n"

    def parted(self):
        """With a node in the middle of every edge that joins what one before it joins: igraph takes parallel edges for one."""
        seen, edges, nodes = set(), [], self.nodes
        for edge in self.edges:
            if edge in seen:
                edges += [(edge[0], nodes), (nodes, edge[1])]
                nodes += 1
            else:
                edges.append(edge)
            seen.add(edge)
        return replace(self, nodes=nodes, edges=edges, ends=self.ends or (list(range(self.nodes)) if nodes > self.nodes else []))


def pairs(graph, label=None):
    """The edges, or those with a label."""
    marked = dict(graph.labels)
    return [(first, second) for number, (first, second, _) in enumerate(graph.edges) if label in (None, marked.get(graph.nodes + number))]


def between(graph):
    """Only edges by which the goal can be reached are left."""
    start, goal = (graph.holder(graphs.PLACE, place) for place in (graphs.FROM, graphs.TO))
    return Search(graph.nodes, walks.useful(graph, start, goal), [start], [goal])


def chains_from(graph, maps):
    """From maps back: the edges of leads-to alone, turned round."""
    return Search(graph.nodes, [(second, first) for first, second in pairs(graph, graphs.LEADS_TO)], maps)


def chains(graph):
    return chains_from(graph, [graph.holder(graphs.PRESENT, 1)])


def parts(graph):
    """Every path on a line, where trails and simple paths are the same."""
    return Search(graph.nodes, pairs(graph), list(range(graph.nodes)))


def parallel(graph):
    return Search(graph.nodes, pairs(graph), [0], [1])


def trails(graph, most):
    """Trails are the simple paths of the line graph, whose nodes are the edges; a trail of one edge is one of its nodes."""
    ends = pairs(graph)
    follow = [(one, two) for one in range(len(ends)) for two in range(len(ends)) if one != two and ends[one][1] == ends[two][0]]
    return Search(len(ends), follow, list(range(len(ends))), most=most - 1, besides=len(ends))


def shortest(graph):
    directed = all(direct for _, _, direct in graph.edges)
    return Search(graph.nodes, pairs(graph), list(range(graph.nodes)), directed=directed, shortest=True)


def processor_and_chain(graph, serial):
    return chains_from(graph, walks.loaded_by(graph, serial))


def processors_and_chains(graph):
    return chains_from(graph, walks.loaded_on_side(graph))
