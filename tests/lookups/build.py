"""Builds the library with its property look-ups counted (02, Q-4): target/lookups/libgpc.a.

    python3 tests/lookups/build.py

It is built of the crates as they stand (tests/kit.py), by the kit's tools with clang.py in clang's place.
"""

import os
import sys
import tempfile

HERE = os.path.dirname(os.path.abspath(__file__))
ARCHIVE = "target/lookups/libgpc.a"
sys.dont_write_bytecode = True
sys.path.insert(0, os.path.dirname(HERE))
import kit


def fill(tools, own):
    """Makes the folder one of the kit's tools, its clang called by way of clang.py."""
    os.makedirs(f"{tools}/bin")
    os.symlink(f"{own}/lib", f"{tools}/lib")
    for tool in set(os.listdir(f"{own}/bin")) - {"clang"}:
        os.symlink(f"{own}/bin/{tool}", f"{tools}/bin/{tool}")
    with open(f"{tools}/bin/clang", "w") as script:
        script.write(f'#!/bin/sh\nexec python3 "{HERE}/clang.py" "{own}/bin/clang" "$@"\n')
    os.chmod(f"{tools}/bin/clang", 0o755)


def main():
    # outside the repository, in which rt ci takes no links
    with tempfile.TemporaryDirectory() as tools:
        fill(tools, f"{kit.home()}/toolchain")
        status, said = kit.build(ARCHIVE, tools)
    if status:
        print(said[-3000:])
    return status


sys.exit(main())
