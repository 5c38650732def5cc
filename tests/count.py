"""Adds up the tests that a part reports: 'N passed, M failed' on a line, or cargo's 'test result:' lines."""

import re
import sys

passed = failed = 0
for line in sys.stdin:
    plain = re.fullmatch(r"(\d+) passed, (\d+) failed\s*", line)
    cargo = re.match(r"test result: .*?(\d+) passed; (\d+) failed", line)
    found = plain or cargo
    if found:
        passed += int(found.group(1))
        failed += int(found.group(2))
print(passed, failed)
