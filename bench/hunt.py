"""Looks for pages that take long, and saves their inputs.

    bench/hunt [--seed N] [--shapes N] [--pages N] [--limit SECONDS] [FILE ..]

Draws so many shapes of graph and pattern (300) from a seed (1), and lists of each the first pages of 20,000 words (4), each shape in a
process of its own, in which a page may take so many seconds (15). With files, those inputs are measured instead. Reports every page over
100 ms, by processor time; of a shape that was drawn its input is left in target/hunt. The form of an input is that of the listing program.
"""

import argparse
import subprocess
import sys
from dataclasses import dataclass, field
from pathlib import Path

import drawn
import inputs
import shapes
import tables
from seeded import Seeded

FOLDER = Path("target/hunt")
SLOW, VERY_SLOW = 100, 1000  # milliseconds
TOLD = 50  # progress after so many shapes
REFUSED = 1  # what pages.c ends with


@dataclass
class Found:
    """What was measured of an input; a page that was given up has the limit as its time."""
    name: str
    said: str
    asked: inputs.Input
    pages: list = field(default_factory=list)  # milliseconds, records
    ended: str = ""  # done, more or over

    def slow(self, bound):
        return [page for page in self.pages if page[0] > bound]


def listed(path, options):
    """The pages of an input and how they ended; nothing where the pattern is refused."""
    run = subprocess.run([FOLDER / "pages", path, str(options.pages), str(options.limit)], capture_output=True, text=True)
    if run.returncode == REFUSED:
        return None
    if run.returncode:
        raise SystemExit(f"{path}: pages ended with {run.returncode} {run.stdout} {run.stderr}")
    *lines, ended = run.stdout.splitlines()
    pages = [(float(line.split()[0]), int(line.split()[1])) for line in lines]
    return pages + ([(1e3 * options.limit + 1, 0)] if ended == "over" else []), ended


def hunt(number, options):
    """A shape, drawn until its pattern is accepted; its input stays where a page is slow."""
    draw = Seeded(options.seed * 100000 + number)
    path = FOLDER / f"{options.seed}-{number}.in"
    graph, said = shapes.shape(draw)
    found = None
    while found is None:
        asked = inputs.Input(graph.image(), drawn.pattern(draw, graph), 1 + draw.below(4))
        path.write_bytes(asked.bytes())
        found = listed(path, options)
    shape = Found(str(path), said, asked, *found)
    if not shape.slow(SLOW):
        path.unlink()
    return shape


def measured(path, options):
    """An input that is there already."""
    asked, found = inputs.read(Path(path).read_bytes()), listed(path, options)
    if found is None:
        raise SystemExit(f"{path}: refused")
    return Found(path, asked.size(), asked, *found)


def spent(page, shape, options):
    return f"over {options.limit} s" if shape.ended == "over" and page is shape.pages[-1] else f"{page[0]:,.0f} ms"


def tell(shape, options):
    """Its slow pages, in one report."""
    slow = [f"page {at} {spent(page, shape, options)}, {page[1]:,} records" for at, page in enumerate(shape.pages, 1) if page[0] > SLOW]
    if slow:
        print(f"{shape.name}: {'; '.join(slow)}\n  {shape.said}\n  {inputs.RESTRICTORS[shape.asked.restrictor]} "
              f"{inputs.pattern(shape.asked.rows)}\n  asks for: {inputs.asks(shape.asked.rows)}", flush=True)


def worst_table(found, options):
    """Of inputs that were named: all of them, slow or not."""
    body = []
    for shape in found:
        worst = max(shape.pages, key=lambda page: page[0])
        body.append([Path(shape.name).stem, shape.said, inputs.asks(shape.asked.rows), f"{len(shape.pages)}, {shape.ended}",
                     spent(worst, shape, options), f"{sum(page[1] for page in shape.pages):,}"])
    return [["input", "graph", "asks for", "pages", "worst page", "records"]] + body


def summary(found):
    """Shapes and pages by what the patterns ask for."""
    kinds = ["compares", "groups", "compares and groups", "neither"]
    head = ["patterns that ask for", "shapes", "pages", f"over {SLOW} ms", f"over {VERY_SLOW // 1000} s", "shapes with a page over 100 ms"]
    body = []
    for kind in [*kinds, "all"]:
        of_kind = [shape for shape in found if kind in ("all", inputs.asks(shape.asked.rows))]
        pages, slow, very = (sum(len(shape.slow(bound)) for shape in of_kind) for bound in (-1, SLOW, VERY_SLOW))
        body.append([kind, *map(str, (len(of_kind), pages, slow, very, sum(1 for shape in of_kind if shape.slow(SLOW))))])
    return [head] + body


def arguments():
    parser = argparse.ArgumentParser(prog="bench/hunt", usage=__doc__)
    for name, value in ("seed", 1), ("shapes", 300), ("pages", 4), ("limit", 15):
        parser.add_argument(f"--{name}", type=int, default=value)
    parser.add_argument("files", nargs="*")
    return parser.parse_args()


def main():
    options = arguments()
    found = []
    work = [(measured, file) for file in options.files] or [(hunt, number) for number in range(1, options.shapes + 1)]
    for one, what in work:
        found.append(one(what, options))
        tell(found[-1], options)
        if len(found) % TOLD == 0:
            print(f"{len(found)} of {len(work)} ..", file=sys.stderr)
    if options.files:
        print(tables.text(worst_table(found, options)) + "\n")
    print(("" if options.files else f"seed {options.seed}; ") + "compares: a comparison of two elements, by an equality or by a variable that stands "
          "twice; groups: a variable in a repetition\n" + tables.text(summary(found)))


main()
