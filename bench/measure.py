"""Measures every case with the engine and with whatever else can express it."""

import math
import os
import re
import subprocess
import sys
import time
from dataclasses import dataclass, field
from pathlib import Path

import rivals

SECONDS = 4  # the limit of another program on a case, where the engine takes less
ENGINE_SECONDS = 20  # of a listing, and of a page
GROWTH_RUNS = 20  # pages of a few milliseconds each, which are compared with one another
GROWTH_ROUNDS = 3  # all lengths in turn, so that what disturbs one of them for a while does not decide
FOLDER = Path("target/bench")


@dataclass
class Engine:
    """What the engine listed; a page that was given up counts with the time that it had."""
    answers: int
    words: int
    pages: int
    done: bool
    first: float
    worst: float
    seconds: float


@dataclass
class Row:
    case: object
    engine: Engine
    others: dict = field(default_factory=dict)  # name to Result, where the case can be expressed
    alone: float = 0  # seconds of the parts of a join, each listed by itself


def machine():
    model = re.search(r"model name\s*: (.*)", open("/proc/cpuinfo").read())
    system = re.search(r'PRETTY_NAME="(.*)"', open("/etc/os-release").read())
    return f"{model.group(1) if model else 'unknown processor'}, {os.cpu_count()} cores, {system.group(1) if system else 'Linux'}"


def written(case):
    """The folder of a case, with its image and its query."""
    folder = FOLDER / re.sub("[^a-z0-9]+", "-", case.name).strip("-")
    case.write(folder)
    return folder


def engine_limit(case):
    return case.seconds or ENGINE_SECONDS


def engine(folder, case, most_pages=0, edges=0, runs=rivals.RUNS, seconds=0, programs=FOLDER, clock="wall"):
    command = [programs / "engine", folder / "image", folder / "query", case.page_words, most_pages or case.most_pages,
               seconds or engine_limit(case), engine_limit(case), runs, edges, clock]
    run = subprocess.run([str(part) for part in command], capture_output=True, text=True)
    if run.returncode:
        raise SystemExit(f"{case.name}: the engine ended with {run.returncode} {run.stdout} {run.stderr}")
    numbers = run.stdout.split()
    return Engine(*(int(number) for number in numbers[:3]), numbers[3] == "1", *(float(number) for number in numbers[4:]))


def agree(row):
    """Every program that came to the end counts the same answers, and the enumerator the same words."""
    counts = {name: result.answers for name, result in row.others.items() if not result.over}
    if row.engine.done:
        counts["engine"] = row.engine.answers
        for name, result in row.others.items():
            if result.words not in (0, row.engine.words):
                raise SystemExit(f"{row.case.name}: {row.engine.words} words, the {name} has {result.words}")
    if len(set(counts.values())) > 1:
        raise SystemExit(f"{row.case.name}: the answers differ: {counts}")


def worst_first_page(folder, case):
    """The worst of the first pages of each length, as far as they go in the time that a listing has."""
    worst = spent = 0
    for edges in range(1, case.graph.nodes):
        page = engine(folder, case, 1, edges, 1)
        worst, spent = max(worst, page.worst), spent + page.seconds
        if page.done or spent > engine_limit(case):
            break
    return worst


def measure(case, programs, known):
    folder = written(case)
    row = Row(case, engine(folder, case))
    if case.kind == "flights in pages" and not row.engine.done:  # its long paths are looked at too
        row.engine.worst = max(row.engine.worst, worst_first_page(folder, case))
    if len(case.parts) > 1:
        row.alone = sum(engine(written(part), part).seconds for part in case.alone())
    # a program that is given up is then known to be slower than an engine that came to the end
    limit = case.seconds or max(SECONDS, math.ceil(row.engine.seconds) if row.engine.done else 0)
    for program in programs:
        if not program.expresses(case):
            continue
        key = program.name, case.listing()
        if key not in known:
            known[key] = rivals.best(lambda: program.run(case, folder, limit), program.runs)
        row.others[program.name] = known[key]
    agree(row)
    return row


def told(cases):
    """The cases, each told when it begins."""
    start = time.monotonic()
    for number, case in enumerate(cases, 1):
        print(f"{number} of {len(cases)}, after {time.monotonic() - start:.0f} s: {case.name} ..", file=sys.stderr)
        yield case


def measure_all(cases, programs):
    known = {}
    return [measure(case, programs, known) for case in told(cases)]


def growth(case, lengths):
    """One page of the records of so many edges, for each length."""
    folder = FOLDER / "growth"
    case.write(folder)
    rounds = [[engine(folder, case, 1, edges, GROWTH_RUNS) for edges in lengths] for _ in range(GROWTH_ROUNDS)]
    return [(edges, min(found, key=lambda result: result.seconds)) for edges, found in zip(lengths, zip(*rounds))]
