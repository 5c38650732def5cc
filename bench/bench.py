"""Runs the bench and prints its tables.

    bench.py [--markdown before|after]     with a part named, the tables also replace that part of docs/BENCH.md
"""

import datetime
import re
import signal
import sqlite3
import subprocess
import sys

import cases
import demands
import flights
import graphs
import measure
import patterns
import rivals
import tables
from postgres import PostgreSQL

LENGTHS = [10, 25, 50, 75, 100, 125, 150, 175]
DOCUMENT = "docs/BENCH.md"


def packaged(name):
    """The version of a package of Debian, without Debian's own part."""
    said = subprocess.run(["dpkg-query", "-W", "-f", "${Version}", name], capture_output=True, text=True).stdout
    return re.split("[+-]", said)[0]


def versions(postgres):
    import networkx

    rust = subprocess.run(["rustc", "--version"], capture_output=True, text=True).stdout.split()[1:2]
    server = subprocess.run([f"{postgres.programs}/postgres", "--version"], capture_output=True, text=True).stdout.split()[2:3]
    return (f"rustc {' '.join(rust)}, SQLite {sqlite3.sqlite_version}, PostgreSQL {' '.join(server)}, networkx {networkx.__version__}, "
            f"igraph {packaged('libigraph-dev')}, graph-tool {packaged('python3-graph-tool')}")


def run():
    postgres = PostgreSQL()
    try:
        others = [rivals.Enumerator(), rivals.SQLite(), postgres, rivals.Networkx(), rivals.Igraph(), rivals.GraphTool()]
        rows = measure.measure_all(cases.all_cases(), others)
        stated = versions(postgres)
    finally:
        postgres.close()
    line = cases.one("growth", graphs.line(199), patterns.repeated(variable=1), cases.TRAIL)
    found = measure.growth(line, LENGTHS)
    return rows, found, stated


def report(rows, found, stated, shape):
    date = datetime.datetime.now(datetime.timezone.utc).strftime("%Y-%m-%d")
    flown, others = ([row for row in rows if row.case.kind.startswith("flights") == is_flight] for is_flight in (True, False))
    without = [f"{row.case.name}: {row.case.without}." for row in others if row.case.without]
    slow, behind = demands.slow_cases(rows), tables.behind(others) + flights.behind(flown)
    return "\n\n".join([
        f"{date}, {measure.machine()}; {stated}. Best of {rivals.RUNS} runs, of one where a run takes over {rivals.LONG_RUN_SECONDS} s.",
        shape(tables.main_table(others)), *without,
        f"Flights: whole listings, by the engine in pages of {cases.WHOLE:,} words and in pages of {cases.PAGE_WORDS:,}:", shape(flights.table(flown)),
        "Pages:", shape(tables.page_table(others)),
        "Joins, and their parts each listed by itself:", shape(tables.join_table(rows)),
        "The line with a group, a page of the records of so many edges:", shape(tables.growth_table(found)),
        "Demands:", shape(demands.table(demands.all_demands(rows, found))),
        *(["A page of 20,000 words over 50 ms: " + "; ".join(slow) + "."] if slow else []),
        *(["The engine is behind: " + "; ".join(behind) + "."] if behind else []),
    ])


def replace(part, tables_text):
    text = open(DOCUMENT).read()
    begin, end = f"<!-- {part} -->\n", f"<!-- end of {part} -->\n"
    head, rest = text.split(begin)
    open(DOCUMENT, "w").write(head + begin + "\n" + tables_text + "\n\n" + end + rest.split(end)[1])


def main():
    if sys.argv[1:] not in ([], ["--markdown", "before"], ["--markdown", "after"]):
        raise SystemExit(__doc__)
    signal.signal(signal.SIGTERM, lambda *_: sys.exit("stopped by SIGTERM"))  # so that the server is stopped too
    results = run()
    print(report(*results, tables.text))
    if sys.argv[1:]:
        replace(sys.argv[2], report(*results, tables.markdown))


main()
