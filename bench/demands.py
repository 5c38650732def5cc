"""What is asked of the numbers, and whether they meet it."""

import flights as flown
from tables import first_page, number, ratio

DOCUMENT_SECONDS = 19.318 / 7582  # an answer of GDB2 in document 004, Table 1
MOST_PAGE_SECONDS = 0.050
MOST_JOIN_SECONDS = 0.100  # the first page of a join
MOST_ALONE = 10  # a join against its parts, each listed by itself
PAGE_WORDS = 20000
NOISE = 1.25  # a cost a word may grow so much and still be called the same


def least_ratio(rows, names, of=ratio):
    """The least over what can be compared."""
    found = [of(row, name) for row in rows for name in names]
    return min(each[0] for each in found if each)


def flights(rows):
    """On the seeds with an answer; a listing that was given up counts with what it had and the time that it took."""
    found = [row for row in rows if row.case.kind == "flights" and not flown.is_empty(row)]
    least = least_ratio(found, ["SQLite", "PostgreSQL", "networkx"])
    mean = sum(row.engine.seconds for row in found) / max(sum(row.engine.answers for row in found), 1)
    return [
        ("flights: an answer at least 20 times faster than the best of SQLite, PostgreSQL, networkx, on every seed", least >= 20, number(least)),
        ("flights: an answer at least 250 times faster than in document 004, all seeds together", DOCUMENT_SECONDS / mean >= 250,
         number(DOCUMENT_SECONDS / mean)),
    ]


def enumerator(rows):
    """Of the cases that it was given."""
    rows = [row for row in rows if "enumerator" in row.others]
    least = least_ratio(rows, ["enumerator"])
    least_marked = least_ratio([row for row in rows if row.case.kind in ("ambiguous", "shortest")], ["enumerator"])
    least_first = least_ratio(rows, ["enumerator"], lambda row, _: first_page(row))
    return [
        ("no case over 3 times slower than the enumerator", least >= 1 / 3, number(least)),
        ("every ambiguous and shortest case faster than the enumerator", least_marked > 1, number(least_marked)),
        ("every first page faster than the enumerator", least_first > 1, number(least_first)),
    ]


def slow_cases(rows):
    """Those with a page of 20,000 words that takes too long."""
    whole = [row for row in rows if row.case.page_words == PAGE_WORDS]
    return [row.case.name for row in whole if row.engine.worst > MOST_PAGE_SECONDS]


def pages(rows):
    """Of pages of 20,000 words or fewer."""
    rows = [row for row in rows if row.case.page_words <= PAGE_WORDS]
    firsts = [row.engine.first for row in rows]
    slow = slow_cases(rows)
    return [
        ("every first page under 50 ms", max(firsts) <= MOST_PAGE_SECONDS, f"{number(1e3 * max(firsts))} ms"),
        ("every page of 20,000 words under 50 ms", not slow, f"{len(slow)} cases over" if slow else "all"),
    ]


def growth(found):
    costs = [page.seconds / page.words for _, page in found]
    worst = max(later / earlier for at, earlier in enumerate(costs) for later in costs[at:])
    return [("line with a group: the cost a line grows no faster than its words", worst <= NOISE, number(worst))]


def joins(rows):
    """Of the joins; the parts of one are listed in one large page too."""
    joined = [row for row in rows if len(row.case.parts) > 1]
    first = max(row.engine.first for row in joined)
    found = [(f"joins: every first page under {1e3 * MOST_JOIN_SECONDS:.0f} ms", first <= MOST_JOIN_SECONDS, f"{number(1e3 * first)} ms")]
    for kind, what in ("selective", "the selective join"), ("star", "the star"):
        most = max(row.engine.seconds / row.alone for row in joined if row.case.kind == kind)
        found.append((f"{what} at most {MOST_ALONE} times its parts listed alone", most <= MOST_ALONE, number(most)))
    least = least_ratio([row for row in joined if row.case.kind == "record"], ["SQLite", "PostgreSQL", "networkx"])
    return found + [("processor and chain: an answer at least 10 times faster than the best of SQLite, PostgreSQL, networkx", least >= 10, number(least))]


def all_demands(rows, found):
    one_part = [row for row in rows if len(row.case.parts) == 1]
    return flights(rows) + enumerator(one_part) + growth(found) + pages(one_part) + joins(rows)


def table(demands):
    return [["demand", "met", "found"]] + [[what, "yes" if met else "no", shown] for what, met, shown in demands]
