"""The cases as recursive queries, in the two dialects. Each counts its answers; a join is a query for each part, and the two joined.

step(a, b, e, label): each way to walk an edge; mark(element, label); property(element, key, value). A trail is kept as the list of its
edges, a simple path as the list of its nodes: a string between commas in SQLite, an array in PostgreSQL.
"""

from graphs import BLUE, FROM, HIGH, LEADS_TO, LEFT, LEVELS, LOADED, LOW, MAP, PLACE, PRESENT, PROCESSOR, RAYS, RED, RIGHT, SERIAL, SIDE, TO

# The ways on in a repeated body: from which state of the pattern to which. Two equal ways are two derivations of the same path.
EITHER = NESTED = [(1, 1), (1, 1)]
THREE_IN_A_ROW = [(1, 1), (1, 2), (2, 2), (2, 3), (3, 3)]


class SQLite:
    def of(self, item):
        return f"',' || {item} || ','"

    def added(self, items, item):
        return f"{items} || {item} || ','"

    def lacks(self, items, item):
        return f"instr({items}, ',' || {item} || ',') = 0"


class PostgreSQL:
    def of(self, item):
        return f"ARRAY[{item}]"

    def added(self, items, item):
        return f"{items} || {item}"

    def lacks(self, items, item):
        return f"{item} <> ALL ({items})"


def recursive_trails(sql, most):
    bound = f"AND length < {most}" if most else ""
    return f"""WITH RECURSIVE path(first, last, length, edges) AS (
        SELECT a, b, 1, {sql.of("e")} FROM step
        UNION ALL
        SELECT first, b, length + 1, {sql.added("edges", "e")} FROM path JOIN step ON a = last
        WHERE {sql.lacks("edges", "e")} {bound})"""


def trails(sql, most=None):
    return f"{recursive_trails(sql, most)} SELECT count(*) FROM path"


def to_levelled(sql, serial, most):
    """The narrow test is the first here, as a database would have it by its index."""
    held = [f"key = {SERIAL} AND value = {serial}", *(f"key = {key} AND value IN ({LOW}, {HIGH})" for key in LEVELS[:-1]), f"key = {LEVELS[-1]} AND value <> 0"]
    goal = " AND ".join(f"EXISTS (SELECT 1 FROM property WHERE element = last AND {each})" for each in held)
    return f"{recursive_trails(sql, most)} SELECT count(*) FROM path WHERE {goal}"


def shortest(sql):
    """Every trail, then those of least length between their ends: a recursive query sees one row at a time, so it cannot leave off
    trails that a shorter one has overtaken."""
    return f"""{recursive_trails(sql, None)}
        SELECT count(*) FROM (SELECT length, min(length) OVER (PARTITION BY first, last) AS least FROM path) AS found
        WHERE length = least"""


def between(sql):
    """Walks to nodes from which no walk leads to the goal are left off, and walks on from the goal, since they can never come back to it."""
    goal = f"SELECT element FROM property WHERE key = {PLACE} AND value = {TO}"
    return f"""WITH RECURSIVE back(node) AS ({goal} UNION SELECT a FROM back JOIN step ON b = node),
        path(last, nodes) AS (
        SELECT element, {sql.of("element")} FROM property WHERE key = {PLACE} AND value = {FROM}
        UNION ALL
        SELECT b, {sql.added("nodes", "b")} FROM path JOIN step ON a = last
        WHERE {sql.lacks("nodes", "b")} AND last <> ({goal}) AND b IN (SELECT node FROM back))
        SELECT count(*) FROM path WHERE last = ({goal})"""


def chains(sql):
    """From the present map back, which leaves off every chain that does not lead to it."""
    return f"""WITH RECURSIVE path(first, edges) AS (
        SELECT a, {sql.of("e")} FROM step JOIN property ON property.element = b JOIN mark ON mark.element = b
        WHERE step.label = {LEADS_TO} AND key = {PRESENT} AND value = 1 AND mark.label = {MAP}
        UNION ALL
        SELECT a, {sql.added("edges", "e")} FROM path JOIN step ON b = first
        WHERE label = {LEADS_TO} AND {sql.lacks("edges", "e")})
        SELECT count(*) FROM path"""


def carried(sql):
    """One step: a join does, nothing is recursive here."""
    return f"""SELECT count(*) FROM step JOIN mark AS map ON map.element = a JOIN mark AS processor ON processor.element = b
        JOIN property AS side ON side.element = a JOIN property AS other ON other.element = b
        WHERE step.label = {LOADED} AND map.label = {MAP} AND processor.label = {PROCESSOR}
        AND side.key = {SIDE} AND other.key = {SIDE} AND side.value = other.value"""


def ambiguous(sql, ways, last_state):
    """UNION leaves off a path that was found in the same state before, so derivations are not multiplied."""
    listed = ", ".join(f"({old}, {new})" for old, new in ways)
    return f"""WITH RECURSIVE way(old, new) AS (VALUES {listed}), path(first, last, state, edges) AS (
        SELECT a, b, 1, {sql.of("e")} FROM step
        UNION
        SELECT first, b, new, {sql.added("edges", "e")} FROM path JOIN way ON old = state JOIN step ON a = last
        WHERE {sql.lacks("edges", "e")})
        SELECT count(*) FROM (SELECT DISTINCT first, edges FROM path WHERE state = {last_state}) AS found"""


def either(sql):
    return ambiguous(sql, EITHER, 1)


def three_in_a_row(sql):
    return ambiguous(sql, THREE_IN_A_ROW, 3)


def nested(sql):
    return ambiguous(sql, NESTED, 1)


def chains_of_maps(sql):
    """Every chain of maps, to whatever map it leads."""
    return f"""chain(first, last, edges) AS (
        SELECT a, b, {sql.of("e")} FROM step JOIN mark ON mark.element = b WHERE step.label = {LEADS_TO} AND mark.label = {MAP}
        UNION ALL
        SELECT a, last, {sql.added("edges", "e")} FROM chain JOIN step ON b = first WHERE label = {LEADS_TO} AND {sql.lacks("edges", "e")})"""


def loaded(condition):
    return f"""loaded(map, edge, processor) AS (
        SELECT a, e, b FROM step JOIN mark AS map ON map.element = a JOIN mark AS processor ON processor.element = b
        WHERE step.label = {LOADED} AND map.label = {MAP} AND processor.label = {PROCESSOR} AND {condition})"""


def processor_and_chain(sql, serial):
    condition = f"EXISTS (SELECT 1 FROM property WHERE element = b AND key = {SERIAL} AND value = {serial})"
    return f"WITH RECURSIVE {chains_of_maps(sql)}, {loaded(condition)} SELECT count(*) FROM loaded JOIN chain ON last = map"


def processors_and_chains(sql):
    condition = f"""EXISTS (SELECT 1 FROM property AS side JOIN property AS other ON side.value = other.value
        WHERE side.element = a AND other.element = b AND side.key = {SIDE} AND other.key = {SIDE})"""
    return f"WITH RECURSIVE {chains_of_maps(sql)}, {loaded(condition)} SELECT count(*) FROM loaded JOIN chain ON last = map"


def two_steps(name):
    return f"{name}(a, b, c, e, f) AS (SELECT s.a, s.b, t.b, s.e, t.e FROM step AS s JOIN step AS t ON t.a = s.b WHERE s.e <> t.e)"


def middle(sql):
    return f"WITH {two_steps('one')}, {two_steps('two')} SELECT count(*) FROM one JOIN two ON one.b = two.b"


def same_edge(sql):
    three = """one(e) AS (SELECT t.e FROM step AS s JOIN step AS t ON t.a = s.b JOIN step AS u ON u.a = t.b
        WHERE s.e <> t.e AND t.e <> u.e AND s.e <> u.e)"""
    return f"WITH {three}, {two_steps('two')} SELECT count(*) FROM one JOIN two ON one.e = two.f"


def nothing(sql):
    return "SELECT count(*) FROM step AS s, step AS t WHERE t.a <> t.b"


def star(sql):
    rays = " JOIN ".join(f"step AS s{label}" + (f" ON s{label}.a = s{RAYS[0]}.a" if label != RAYS[0] else "") for label in RAYS)
    return f"SELECT count(*) FROM {rays} WHERE " + " AND ".join(f"s{label}.label = {label}" for label in RAYS)


def simple_paths(sql, name, most, first="1 = 1"):
    """Simple paths of up to so many edges; the label that the first edge has, all have."""
    return f"""{name}(first, last, length, label, nodes) AS (
        SELECT a, b, 1, label, {sql.added(sql.of("a"), "b")} FROM step WHERE a <> b AND {first}
        UNION ALL
        SELECT first, b, length + 1, {name}.label, {sql.added("nodes", "b")} FROM {name} JOIN step ON a = last
        WHERE length < {most} AND step.label = {name}.label AND {sql.lacks("nodes", "b")})"""


def marked(node, label):
    return f"EXISTS (SELECT 1 FROM mark WHERE element = {node} AND mark.label = {label})"


def selective(sql, most):
    return f"""WITH RECURSIVE {simple_paths(sql, "one", most)}, {simple_paths(sql, "two", most, marked("a", RIGHT))}
        SELECT count(*) FROM one JOIN two ON one.last = two.first WHERE {marked("one.last", LEFT)}"""


def both_ends(sql, most):
    return f"""WITH RECURSIVE {simple_paths(sql, "one", most, f"label = {RED}")}, {simple_paths(sql, "two", most, f"label = {BLUE}")}
        SELECT count(*) FROM one JOIN two ON one.first = two.first AND one.last = two.last"""
