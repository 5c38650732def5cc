"""The static library for C, compiled by the Rattle kit over the libraries that rt left in crates/*/out, by which it is proved anew.

    python3 tests/kit.py ARCHIVE [TOOLCHAIN]

Rt itself compiles it (rt lib) only over libraries that rt lib or rt check proved: after an rt ci in a clean checkout it would prove all a
second time. With a toolchain named, that one takes the place of the kit's.
"""

import os
import subprocess
import sys

CRATE = "gpc_c"


def home():
    said = subprocess.run(["rt", "doc"], capture_output=True, text=True, check=True)
    return os.path.dirname(said.stdout.strip())


def listed():
    """What each crate of crates.txt stands on."""
    lines = (line.split("#")[0].partition(":") for line in open("crates.txt"))
    return {name.split()[0]: needs.split() for name, colon, needs in lines if colon}


def below(crate, needs):
    """The crates of the repository that a crate stands on."""
    found = {name for name in needs[crate] if name in needs}
    return found.union(*(below(name, needs) for name in found))


def build(archive, toolchain=None):
    """Returns the exit status of the kit's compiler, and all that it said."""
    kit, needs = home(), listed()
    libraries = {name: f"crates/{name}/out/rlib/{name}.rlib" for name in sorted(below(CRATE, needs))}
    words = [f"{kit}/bin/rattle", "build", "--crate-name", CRATE, f"crates/{CRATE}/src/lib.rt", "--crate-type", "staticlib"]
    words += ["--extern", f"std={kit}/rlibs/std.rlib", "-L", f"dependency={kit}/rlibs"]
    for name, library in libraries.items():
        words += ["--extern", f"{name}={library}"] if name in needs[CRATE] else []
        words += ["-L", f"dependency={os.path.dirname(library)}"]
    words += ["--antt-project", f"{kit}/rattle/logic/antt-project.json", "--logic-built", f"{kit}/logic_built"]
    words += ["--toolchain", toolchain or f"{kit}/toolchain", "--backend", "llvm", "-o", archive]
    os.makedirs(os.path.dirname(archive), exist_ok=True)
    done = subprocess.run(words, stdout=subprocess.PIPE, stderr=subprocess.STDOUT, text=True, errors="replace")
    return done.returncode, done.stdout


if __name__ == "__main__":
    status, said = build(*sys.argv[1:])
    if status:
        print(said[-3000:])
    sys.exit(status)
