"""Compares two builds of the library, before and after, and prints what each case takes with both, with the ratio.

The programs on the archive before are in target/bench/before, those on the one after in target/bench. Listings are measured by the
processor's time, so that other work on the machine does not decide.
"""

import re
import statistics
import subprocess
import sys
from dataclasses import dataclass
from functools import partial

import cases
import measure
import tables

BEFORE, AFTER = measure.FOLDER / "before", measure.FOLDER
ROUNDS, LEAST_ROUNDS = 15, 3
CASE_SECONDS = 3  # a case whose rounds would take longer has fewer of them
LISTING_SECONDS = 1  # of a longer listing the pages that both list in this time are compared
RUNS_SECONDS = 0.2  # a shorter listing is listed several times in a round
MOST_RUNS = 100
JUDGE_ROUNDS = 60  # of a hundredth of a second each


@dataclass
class Pair:
    case: cases.Case
    before: measure.Engine
    after: measure.Engine

    def ratio(self):
        """None where a page was given up."""
        is_given_up = max(self.before.worst, self.after.worst) >= measure.engine_limit(self.case)
        return None if is_given_up else self.after.seconds / self.before.seconds


def in_turn(run, rounds):
    """What both give in every round. The two begin a round in turn, so that what disturbs one disturbs the other too."""
    found = {BEFORE: [], AFTER: []}
    for at in range(rounds):
        for programs in (BEFORE, AFTER) if at % 2 == 0 else (AFTER, BEFORE):
            found[programs].append(run(programs))
    return found[BEFORE], found[AFTER]


def check_same(case, found):
    """Both list the same."""
    listed = {(each.answers, each.words, each.pages, each.done) for each in found}
    if len(listed) > 1:
        raise SystemExit(f"{case.name}: the two list different things (answers, words, pages, done): {sorted(listed)}")


def compare(case):
    folder = measure.written(case)
    engine = partial(measure.engine, folder, case, clock="processor")
    first = [engine(runs=1, seconds=LISTING_SECONDS, programs=programs) for programs in (BEFORE, AFTER)]
    if Pair(case, *first).ratio() is None:
        return Pair(case, *first)
    pages, seconds = min(each.pages for each in first), max(each.seconds for each in first)
    runs = max(1, min(MOST_RUNS, int(RUNS_SECONDS / seconds)))
    rounds = max(LEAST_ROUNDS, min(ROUNDS, int(CASE_SECONDS / (2 * runs * seconds))))
    before, after = in_turn(lambda programs: engine(pages, runs=runs, programs=programs), rounds)
    check_same(case, before + after)
    return Pair(case, *(min(each, key=lambda one: one.seconds) for each in (before, after)))


def compare_all():
    for case in measure.told(cases.all_cases()):
        yield compare(case)


def judge(programs):
    """What the judge takes on each pattern, in us."""
    said = subprocess.run([programs / "judge_cost"], capture_output=True, text=True, check=True).stdout
    found = re.findall(r"^yes (\d)  (.+): ([0-9.]+) us", said, re.MULTILINE)
    if any(yes != "1" for yes, _, _ in found):
        raise SystemExit(f"the judge refused a record:\n{said}")
    return {name: float(spent) for _, name, spent in found}


def judge_table():
    """The median of rounds that are each the best of many runs: a round this short may be lucky, and then it is for one of the two."""
    found = in_turn(judge, JUDGE_ROUNDS)
    before, after = ({name: statistics.median(each[name] for each in rounds) for name in rounds[0]} for rounds in found)
    body = [[name, tables.number(before[name]), tables.number(after[name]), tables.number(after[name] / before[name])] for name in before]
    return [[f"the judge, median of {JUDGE_ROUNDS} rounds", "before us", "after us", "after / before"]] + body


def listing_table(pairs):
    body = []
    for pair in pairs:
        listed, ratio = pair.after, pair.ratio()
        body.append([pair.case.name, tables.answers(listed), f"{listed.words:,}", f"{pair.case.page_words:,}", f"{listed.pages:,}",
                     tables.number(1e3 * pair.before.seconds), tables.number(1e3 * listed.seconds), tables.number(ratio) if ratio else "-"])
    return [["case", "answers", "words", "words a page", "pages", "before ms", "after ms", "after / before"]] + body


def main():
    if sys.argv[1:]:
        raise SystemExit("two archives are compared without --markdown")
    pairs = list(compare_all())
    ratios = [pair.ratio() for pair in pairs if pair.ratio()]
    print("\n\n".join([
        f"{measure.machine()}. The best of {ROUNDS} rounds, of at least {LEAST_ROUNDS} where they take long; the two in turn, "
        "by the processor's time.",
        tables.text(listing_table(pairs)),
        f"Of all cases: geometric mean {tables.number(statistics.geometric_mean(ratios))}, least {tables.number(min(ratios))}, "
        f"greatest {tables.number(max(ratios))}.",
        tables.text(judge_table()),
    ]))


main()
