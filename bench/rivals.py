"""The other programs, each with a limit of time: the enumerator, SQLite, PostgreSQL (postgres.py), networkx, igraph and graph-tool."""

import resource
import signal
import sqlite3
import subprocess
import sys
import time
from dataclasses import dataclass

import queries

RUNS = 3
LONG_RUN_SECONDS = 2  # a run over this is not repeated
MEMORY = 4 << 30


@dataclass
class Result:
    seconds: float
    answers: int = 0
    words: int = 0  # of the records, where a program makes them
    over: bool = False  # given up after these seconds


class Over(Exception):
    pass


class Program:
    runs = RUNS


def best(run, runs=RUNS):
    """The best of several runs of something that gives a Result."""
    found = None
    for _ in range(runs):
        result = run()
        if found is None or result.seconds < found.seconds:
            found = result
        if result.over or result.seconds > LONG_RUN_SECONDS:
            break
    return found


def timed(count):
    """Counts answers by a function that is stopped where it takes too long; any other error is one."""
    start = time.monotonic()
    try:
        answers = count()
    except (Over, MemoryError):
        return Result(time.monotonic() - start, over=True)
    except sqlite3.OperationalError as error:
        if "interrupted" not in str(error):
            raise
        return Result(time.monotonic() - start, over=True)
    return Result(time.monotonic() - start, answers)


def in_process(*command):
    """Runs a program that may use so much memory."""
    return subprocess.run([str(word) for word in command], capture_output=True, text=True,
                          preexec_fn=lambda: resource.setrlimit(resource.RLIMIT_AS, (MEMORY, MEMORY)))


class Enumerator(Program):
    name = "enumerator"
    program = "tests/enumerator/target/release/enumerator"

    def expresses(self, case):
        return case.kind not in ("flights", "flights in pages")  # it walks from every node, and comes to no end there

    def run(self, case, folder, limit):
        start = time.monotonic()
        run = in_process(self.program, "time", folder / "image", folder / "query", limit)
        if run.stdout.startswith("over") or "memory allocation" in run.stderr:
            return Result(time.monotonic() - start, over=True)
        if run.returncode:
            raise SystemExit(f"{case.name}: the enumerator ended with {run.returncode} {run.stderr}")
        answers, words, seconds = run.stdout.split()
        return Result(float(seconds), int(answers), int(words))


class SQLite(Program):
    name = "SQLite"

    def expresses(self, case):
        return case.query is not None

    def run(self, case, folder, limit):
        base = sqlite3.connect(":memory:")
        base.executescript(schema(case.graph))
        base.execute(f"PRAGMA hard_heap_limit = {MEMORY}")
        end = time.monotonic() + limit
        base.set_progress_handler(lambda: time.monotonic() > end, 100000)
        query = case.query(queries.SQLite())
        result = timed(lambda: base.execute(query).fetchone()[0])
        base.close()
        return result


class Networkx(Program):
    name = "networkx"

    def expresses(self, case):
        return case.walk is not None

    def run(self, case, folder, limit):
        walk = case.walk(case.graph)
        signal.signal(signal.SIGALRM, stop)
        signal.setitimer(signal.ITIMER_REAL, limit)
        try:
            return timed(walk)
        finally:
            signal.setitimer(signal.ITIMER_REAL, 0)


def stop(*_):
    raise Over


class Library(Program):
    """A library of graph algorithms: a program that reads a search and lists its paths."""

    def expresses(self, case):
        return case.search is not None

    def run(self, case, folder, limit):
        search = self.takes(case.search(case.graph))
        (folder / self.name).write_text(search.text())
        start = time.monotonic()
        run = in_process(*self.command, folder / self.name, limit)
        if run.stdout.startswith("over") or run.returncode == -signal.SIGALRM or "MemoryError" in run.stderr:
            return Result(time.monotonic() - start, over=True)
        if run.returncode:
            raise SystemExit(f"{case.name}: {self.name} ended with {run.returncode} {run.stderr}")
        answers, seconds = run.stdout.split()
        return Result(float(seconds), int(answers) + search.besides)


class Igraph(Library):
    name = "igraph"
    command = ["target/bench/igraph_paths"]

    def takes(self, search):
        return search.parted()


class GraphTool(Library):
    name = "graph-tool"
    runs = 1  # the program makes its own: it takes long to start
    command = [sys.executable, "-W", "ignore", "bench/graph_tool_paths.py"]

    def takes(self, search):
        return search


def schema(graph):
    """The tables of a graph, as text that both databases take."""
    tables = [("step", "a, b, e, label", list(graph.steps())), ("mark", "element, label", graph.labels),
              ("property", "element, key, value", graph.properties)]
    text = ""
    for name, columns, rows in tables:
        text += f"CREATE TABLE {name} ({', '.join(column + ' int' for column in columns.split(', '))});\n"
        if rows:
            text += f"INSERT INTO {name} VALUES {', '.join(str(row) for row in rows)};\n"
    return text + """CREATE INDEX step_a ON step (a); CREATE INDEX step_b ON step (b);
        CREATE INDEX mark_element ON mark (element); CREATE INDEX property_element ON property (element); ANALYZE;"""
