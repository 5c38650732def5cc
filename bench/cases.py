"""The cases of the bench, each with its graph, its query and what else can express it."""

import struct
from dataclasses import dataclass
from functools import partial

import graphs
import patterns
import queries
import searches
import walks

TRAIL, SIMPLE, SHORTEST_TRAIL, SHORTEST_SIMPLE = range(1, 5)
PAGE_WORDS = 20000
WHOLE = 2000000  # a page with room for a whole listing
SEED = 1  # of every random graph but the flights
FLIGHTS = range(1, 21)  # their seeds: the first twenty, whatever number of answers they have
FLIGHTS_SECONDS = 3  # the limit of every program there
PROCESSOR = 100  # the first serial number
SERIAL_SOUGHT = 9  # of the one map that a long condition leaves
MOST_EDGES = 5  # of a path of the selective joins, and to that map


@dataclass
class Part:
    rows: list
    restrictor: int
    name: int = 0  # of the path; 0 none

    def words(self):
        return [word for row in self.rows for word in row]


@dataclass
class Case:
    name: str
    graph: graphs.Graph
    parts: list
    query: object = None  # of a dialect: the same case in SQL
    walk: object = None  # of a graph: the same case with networkx
    search: object = None  # of a graph: the same case with igraph and graph-tool
    kind: str = ""  # what is asked of it: ambiguous, shortest, flights, flights in pages, join, selective, star, record
    page_words: int = PAGE_WORDS
    most_pages: int = 0  # of a listing too long to be read to its end
    seconds: int = 0  # the limit of every program, the engine too; 0: as measure.py has it
    without: str = ""  # why it is not listed to its end

    def write(self, folder):
        folder.mkdir(parents=True, exist_ok=True)
        patterns = [part.words() for part in self.parts]
        words = [len(self.parts)]
        for part, pattern in zip(self.parts, patterns):
            words += [part.restrictor, part.name, len(pattern)]
        words += [word for pattern in patterns for word in pattern]
        (folder / "image").write_bytes(self.graph.image())
        (folder / "query").write_bytes(struct.pack(f"<{len(words)}H", *words))

    def alone(self):
        """Its parts, each listed by itself."""
        return [Case(f"{self.name}, part {number}", self.graph, [Part(part.rows, part.restrictor)], page_words=self.page_words)
                for number, part in enumerate(self.parts, 1)]

    def listing(self):
        """What the listing depends on: cases that differ in pages alone ask the others only once."""
        return self.graph.image(), tuple((tuple(part.rows), part.restrictor, part.name) for part in self.parts)


def one(name, graph, rows, restrictor, *others, **more):
    """A case of one part without a path name."""
    return Case(name, graph, [Part(rows, restrictor)], *others, **more)


def records():
    line, parted = graphs.fitting(SEED, 0), graphs.fitting(SEED, 5)
    return [
        one("chains of maps", line, patterns.chains(), TRAIL, queries.chains, walks.chains, searches.chains),
        one("chains that part and meet", parted, patterns.chains(), TRAIL, queries.chains, walks.chains, searches.chains),
        one("processors of a map", line, patterns.carried(), TRAIL, queries.carried),
    ]


def flights():
    """Each listing in large pages, as a query gives it in one answer; and in pages of the usual size."""
    cases = []
    for seed in FLIGHTS:
        make = partial(one, graph=graphs.flights(seed), rows=patterns.between(), restrictor=SIMPLE, seconds=FLIGHTS_SECONDS)
        cases.append(make(f"flights, seed {seed}", query=queries.between, walk=walks.between, search=searches.between, kind="flights",
                          page_words=WHOLE))
        cases.append(make(f"flights, seed {seed}, in pages", kind="flights in pages"))
    return cases


def dense():
    graph, _ = graphs.random_graph(SEED, 12, 40)
    make = partial(one, graph=graph, rows=patterns.repeated(most=6), restrictor=TRAIL)
    smaller = [make(f"dense, pages of {words:,}", page_words=words) for words in (1000, 64)]
    return [make("dense, trails of 1 to 6", query=partial(queries.trails, most=6), search=partial(searches.trails, most=6))] + smaller


def conditions():
    """02, Q-4: a table that an editor made puts the narrow test on the right."""
    asked = {"serial": SERIAL_SOUGHT, "most": MOST_EDGES}
    return [one("a long condition, narrow on the right", graphs.levelled(SEED), patterns.to_levelled(**asked), TRAIL, partial(queries.to_levelled, **asked))]


def lines():
    line = graphs.line(199)
    return [
        one("line, every part", line, patterns.repeated(), TRAIL, queries.trails, walks.parts, searches.parts),
        one("line, every part, a group", line, patterns.repeated(variable=1), TRAIL, queries.trails, walks.parts, searches.parts),
        one("line, eight groups", line, patterns.in_a_row(8, True), TRAIL, most_pages=20,
             without="far too many answers to be listed by anyone: 20 pages of it"),
    ]


def ambiguous():
    line, short = graphs.line(199), graphs.line(60)
    make = partial(one, restrictor=TRAIL, kind="ambiguous")
    return [
        make("[-> + ->] repeated", line, patterns.either(), query=queries.either),
        make("[-> + ->] repeated, a group", short, patterns.either(1), query=queries.either),
        make("three repetitions in a row", short, patterns.in_a_row(3, False), query=queries.three_in_a_row),
        make("a repetition repeated", short, patterns.nested(), query=queries.nested),
    ]


def shortest():
    """Of all pairs. Where edges have no direction, trails lead from a node to itself as well: of those no library knows, so one grid is
    listed by simple paths too."""
    make = partial(one, kind="shortest")
    forward, any_way = patterns.repeated(), patterns.repeated(patterns.UNDIRECTED)
    cases = []
    for width in 6, 10:
        cases.append(make(f"grid {width} by {width}, directed", graphs.grid(width, 1), forward, SHORTEST_TRAIL, queries.shortest, walks.shortest,
                          searches.shortest))
        cases.append(make(f"grid {width} by {width}, undirected", graphs.grid(width, 0), any_way, SHORTEST_TRAIL, queries.shortest))
    simple = make("grid 6 by 6, undirected, simple", graphs.grid(6, 0), any_way, SHORTEST_SIMPLE, walk=walks.shortest, search=searches.shortest)
    return [*cases, simple]


def parallel():
    return [one("200 parallel edges", graphs.parallel(200), patterns.repeated(), TRAIL, queries.trails, walks.parallel, searches.parallel)]


def record_joins():
    """Processors and the chains of the maps that they carried: two parts that share the map, at an end of both; the chain is named."""
    graph = graphs.numbered(SEED, 5)
    chains = Part(patterns.chains_to(1), TRAIL, 9)
    return [
        Case("processor and chain", graph, [Part(patterns.carried_by(PROCESSOR), TRAIL), chains],
             *(partial(each.processor_and_chain, serial=PROCESSOR) for each in (queries, walks, searches)), kind="record"),
        Case("all processors and chains", graph, [Part(patterns.carried(), TRAIL), chains], queries.processors_and_chains,
             walks.processors_and_chains, searches.processors_and_chains, kind="join"),
    ]


def joins():
    graph, _ = graphs.random_graph(SEED, 12, 40)
    middle = [Part(patterns.steps(1, 2, 3), TRAIL), Part(patterns.steps(4, 2, 5), TRAIL)]
    edge = [Part(patterns.edges(0, 1, 0), TRAIL), Part(patterns.edges(2, 1), TRAIL)]
    nothing = [Part(patterns.steps(1, 2), TRAIL), Part(patterns.steps(3, 4), SIMPLE)]
    return [
        Case("a node in the middle", graph, middle, queries.middle, walks.middle, kind="join"),
        Case("an edge", graph, edge, queries.same_edge, walks.same_edge, kind="join"),
        Case("nothing shared", graph, nothing, queries.nothing, walks.nothing, kind="join"),
    ]


def stars():
    parts = [Part(patterns.ray(label, label + 1), TRAIL) for label in graphs.RAYS]
    return [Case("star of four", graphs.star(SEED), parts, queries.star, walks.star, kind="star", page_words=WHOLE)]


def selective():
    node = [Part(patterns.into(graphs.LEFT, 1, MOST_EDGES), SIMPLE), Part(patterns.out_of(graphs.RIGHT, 1, MOST_EDGES), SIMPLE)]
    ends = [Part(patterns.joined_by(label, 1, MOST_EDGES), SIMPLE) for label in (graphs.RED, graphs.BLUE)]
    make = partial(Case, page_words=WHOLE)
    return [
        make("selective, by a node", graphs.sided(SEED), node, partial(queries.selective, most=MOST_EDGES), partial(walks.selective, most=MOST_EDGES),
             kind="selective"),
        make("selective, by both ends", graphs.coloured(SEED), ends, partial(queries.both_ends, most=MOST_EDGES),
             partial(walks.both_ends, most=MOST_EDGES), kind="join"),
    ]


def all_cases():
    return one_part() + record_joins() + joins() + stars() + selective()


def one_part():
    return records() + flights() + dense() + conditions() + lines() + ambiguous() + shortest() + parallel()
