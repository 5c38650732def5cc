"""The table of the flights: whole listings, since some seeds have no line."""

from tables import OTHERS, answers, number, times


def is_cut(listing):
    """Whether the engine's listing, or another program's, was given up."""
    return not listing.done if hasattr(listing, "done") else listing.over


def is_empty(row):
    """Whether the seed has no answer. Then nothing is compared: the libraries are handed a graph in which no edge is left."""
    return row.engine.done and row.engine.answers == 0


def milliseconds(seconds, limit):
    return f"over {limit} s" if seconds >= limit else number(1e3 * seconds)


def whole(listing, limit):
    return milliseconds(limit if is_cut(listing) else listing.seconds, limit)


def against_best(row):
    """The fastest of the others, and how many times the engine's time it takes: at most so many where the engine was given up."""
    ended = {name: other for name, other in row.others.items() if not other.over}
    if not ended:
        return None
    best = min(ended, key=lambda name: ended[name].seconds)
    return best, ended[best].seconds / (row.case.seconds if is_cut(row.engine) else row.engine.seconds)


def compared(row):
    found = against_best(row)
    if is_empty(row) or found is None and is_cut(row.engine):
        return "-"
    if found is None:
        return times(row.case.seconds / row.engine.seconds, True)
    return f"{'>' if is_cut(row.engine) else ''}{times(found[1], False)} than {found[0]}"


def behind(rows):
    """The seeds on which another program was faster."""
    found = [row.case.name.split()[-1] for row in rows if not is_empty(row) and (against := against_best(row)) and against[1] < 1]
    return [f"flights, seeds {', '.join(found)}"] if found else []


def counted(row):
    """By whoever came to the end."""
    ended = [other for other in row.others.values() if not other.over]
    return f"{ended[0].answers:,}" if ended and is_cut(row.engine) else answers(row.engine)


def worst(pages, limit):
    """A bound where some pages were not come to."""
    most = milliseconds(max(listing.worst for listing in pages), limit)
    return most if most.startswith("over") or not any(map(is_cut, pages)) else ">" + most


def line(row, page, names):
    limit = row.case.seconds
    return [row.case.name, counted(row), whole(row.engine, limit), f"{page.engine.pages:,}", worst([page.engine], limit),
            whole(page.engine, limit), *(whole(row.others[name], limit) for name in names), compared(row)]


def total(listings):
    """Of all seeds; a bound where some were given up."""
    return (">" if any(map(is_cut, listings)) else "") + number(1e3 * sum(listing.seconds for listing in listings))


def parted(rows):
    """Those in large pages, and those in pages of the usual size."""
    return ([row for row in rows if row.case.kind == kind] for kind in ("flights", "flights in pages"))


def table(rows):
    large, paged = parted(rows)
    names = [name for name in OTHERS if name in large[0].others]
    engines, pages = [row.engine for row in large], [row.engine for row in paged]
    last = [f"all {len(large)}", "", total(engines), f"{sum(each.pages for each in pages):,}",
            worst(pages, large[0].case.seconds), total(pages),
            *(total([row.others[name] for row in large]) for name in names), ""]
    head = ["case", "answers", "engine ms", "pages", "worst page ms", "in pages ms", *(name + " ms" for name in names), "engine is"]
    return [head, *(line(row, page, names) for row, page in zip(large, paged)), last]
