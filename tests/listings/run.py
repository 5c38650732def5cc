"""The program that prints a listing, started once for each of the enumerator's random inputs, its whole text compared.

    python3 tests/listings/run.py [SEED [COUNT [PROGRAM]]]
"""

import os
import subprocess
import sys

ROOT = os.path.dirname(os.path.dirname(os.path.dirname(os.path.abspath(__file__))))
ENUMERATOR = os.path.join(ROOT, "tests/enumerator/target/release/enumerator")
PROGRAM = "target/bin/listing"
MOST_SHOWN = 20


def built():
    """The program, built anew where a source is newer."""
    subprocess.run(["bash", "tests/proved", PROGRAM, "listing"], cwd=ROOT, check=True)
    return os.path.join(ROOT, PROGRAM)


def contents(dump):
    """The bytes of a dump: pieces of hex digits, or one byte, a star and how often it stands there."""
    parts = []
    for piece in dump.split():
        digits, _, times = piece.partition("*")
        parts.append(bytes.fromhex(digits) * int(times or 1))
    return b"".join(parts)


def cases(seed, count):
    """What each case holds, line by line as the enumerator writes it."""
    command = [ENUMERATOR, "listings", str(seed), str(count)]
    case = {}
    with subprocess.Popen(command, stdout=subprocess.PIPE, text=True) as enumerator:
        for line in enumerator.stdout:
            name, _, value = line.rstrip("\n").partition(" ")
            if name == "case" and case:
                yield case
                case = {}
            case[name] = value
    if enumerator.returncode == 0 and case:
        yield case


def holds(program, case):
    run = subprocess.run([program], input=contents(case["input"]), capture_output=True)
    return run.returncode == 0 and run.stderr == b"" and run.stdout == contents(case["text"])


def main():
    seed = int(sys.argv[1]) if len(sys.argv) > 1 else 1
    count = int(sys.argv[2]) if len(sys.argv) > 2 else 5000
    program = sys.argv[3] if len(sys.argv) > 3 else built()
    passed = failed = 0
    for case in cases(seed, count):
        if holds(program, case):
            passed += 1
            continue
        failed += 1
        if failed <= MOST_SHOWN:
            print(f"differs: listings {seed} case {case['case']} ({case['note']})")
    # A case that the enumerator did not write is no case that passed.
    failed += max(0, count - passed - failed)
    print(f"{passed} passed, {failed} failed")
    return 1 if failed or not passed else 0


sys.exit(main())
