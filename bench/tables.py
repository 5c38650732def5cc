"""The tables, as aligned text and as Markdown."""

import math

OTHERS = ["enumerator", "SQLite", "PostgreSQL", "networkx", "igraph", "graph-tool"]


def number(value):
    """Three digits that count, two below 0.1."""
    if value >= 100 or value == 0:
        return f"{value:,.0f}"
    return f"{value:.{(1 if value < 0.1 else 2) - math.floor(math.log10(value))}f}"


def times(ratio, is_bound):
    """How many times faster or slower; a bound where the other program was given up."""
    if ratio >= 1:
        return f"{'>' if is_bound else ''}{number(ratio)}x faster"
    return f"{'<' if is_bound else ''}{number(1 / ratio)}x slower"


def per_line(row):
    """Seconds a line of the engine; for a listing without a line, its seconds."""
    return row.engine.seconds / max(row.engine.answers, 1)


def ratio(row, name):
    """Another program's time a line against the engine's, and whether it is only a lower bound. None where they cannot be compared."""
    other = row.others.get(name)
    if other is None:
        return None
    if other.over:  # only the engine knows how many lines there are
        return (other.seconds / max(row.engine.answers, 1) / per_line(row), True) if row.engine.done else None
    return other.seconds / max(other.answers, 1) / per_line(row), False


def cells(row, name):
    """Time a line, times faster or slower."""
    other, found = row.others.get(name), ratio(row, name)
    if other is None:
        return ["-", "-"]
    spent = f"over {other.seconds:.0f} s" if other.over else number(1e6 * other.seconds / max(other.answers, 1))
    return [spent, times(*found) if found else "-"]


def answers(engine):
    return f"{engine.answers:,}" + ("" if engine.done else " and more")


def main_table(rows):
    head = ["case", "answers", "words", "engine us a line"]
    for name in OTHERS:
        head += [name + " us a line", "engine is"]
    body = []
    for row in rows:
        line = [row.case.name, answers(row.engine), f"{row.engine.words:,}", number(1e6 * per_line(row))]
        body.append(line + [cell for name in OTHERS for cell in cells(row, name)])
    return [head] + body


def behind(rows):
    """The cases in which another program takes less time a line, with those programs."""
    found = []
    for row in rows:
        faster = [f"{name} {times(*compared)}".replace("x slower", " times") for name in OTHERS if (compared := ratio(row, name)) and compared[0] < 1]
        if faster:
            found.append(f"{row.case.name} ({', '.join(faster)})")
    return found


def first_page(row):
    """As ratio, for the first page alone: the enumerator's comes after its whole listing."""
    other = row.others["enumerator"]
    return other.seconds / row.engine.first, other.over


def page_table(rows):
    body = []
    for row in rows:
        body.append([row.case.name, f"{row.case.page_words:,}", f"{row.engine.pages:,}", number(1e3 * row.engine.first),
                     number(1e3 * row.engine.worst), times(*first_page(row))])
    return [["case", "words a page", "pages", "first page ms", "worst page ms", "first page against the enumerator"]] + body


def join_table(rows):
    """Joins against their parts, each listed by itself."""
    body = []
    for row in rows:
        if len(row.case.parts) > 1:
            body.append([row.case.name, str(len(row.case.parts)), answers(row.engine), number(1e3 * row.engine.seconds), number(1e3 * row.alone),
                         number(row.engine.seconds / row.alone)])
    return [["join", "parts", "answers", "ms", "its parts alone ms", "ratio"]] + body


def growth_table(found):
    body = []
    for edges, page in found:
        line, words = page.seconds / page.answers, page.words / page.answers
        body.append([str(edges), number(words), number(1e6 * line), number(1e9 * line / words)])
    return [["edges of a record", "words a line", "us a line", "ns a word"]] + body


def text(table):
    """The first column to the left, the others to the right."""
    widths = [max(len(row[column]) for row in table) for column in range(len(table[0]))]
    lines = ["  ".join(cell.ljust(width) if i == 0 else cell.rjust(width) for i, (cell, width) in enumerate(zip(row, widths)))
             for row in table]
    return "\n".join(lines[:1] + ["-" * len(lines[0])] + lines[1:])


def markdown(table):
    lines = ["| " + " | ".join(row) + " |" for row in table]
    return "\n".join(lines[:1] + ["| --- |" + " ---: |" * (len(table[0]) - 1)] + lines[1:])
