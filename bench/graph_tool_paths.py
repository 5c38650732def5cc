"""Lists paths with graph-tool and times its calls alone, as igraph_paths.c does with igraph. The best of several runs is told.

    graph_tool_paths.py FILE SECONDS
"""

import signal
import sys

from graph_tool import Graph
from graph_tool.topology import all_paths, all_predecessors, all_shortest_paths, shortest_distance

import rivals


def read(file):
    numbers = [int(word) for word in open(file).read().split()]
    nodes, edges, directed, shortest, most, starts, ends = numbers[:7]
    rest = numbers[7:]
    pairs = rest[starts + ends:]
    graph = Graph(directed=bool(directed))
    graph.add_vertex(nodes)
    graph.add_edge_list(list(zip(pairs[::2], pairs[1::2])))
    return graph, bool(shortest), most or None, rest[:starts], rest[starts:starts + ends]


def simple(graph, most, starts, ends):
    """With every node as end, all lead on to one node more: a call for each start, and a path of no edge for each."""
    if not ends:
        sink, before = int(graph.add_vertex()), graph.num_vertices() - 1
        graph.add_edge_list([(node, sink) for node in range(before)])
        most = most and most + 1
        return lambda: sum(1 for start in starts for _ in all_paths(graph, start, sink, cutoff=most)) - len(starts)
    return lambda: sum(1 for start in starts for end in ends for _ in all_paths(graph, start, end, cutoff=most))


def shortest(graph, starts, ends):
    """The search from a start is made once for all its ends."""
    ends = ends or range(graph.num_vertices())

    def count():
        found = 0
        for start in starts:
            distances, before = shortest_distance(graph, start, pred_map=True)
            maps = {"dist_map": distances, "pred_map": before, "all_preds_map": all_predecessors(graph, distances, before)}
            far = distances.a
            found += sum(1 for end in ends if end != start and far[end] < len(far) for _ in all_shortest_paths(graph, start, end, **maps))
        return found

    return count


def run(count, limit):
    """One run; the alarm ends the program."""
    signal.alarm(limit)
    return rivals.timed(count)


def main():
    graph, is_shortest, most, starts, ends = read(sys.argv[1])
    count = shortest(graph, starts, ends) if is_shortest else simple(graph, most, starts, ends)
    found = rivals.best(lambda: run(count, int(sys.argv[2])))
    print(found.answers, found.seconds)


main()
