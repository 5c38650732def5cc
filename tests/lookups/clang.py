"""In clang's place: the module gets a counter of property look-ups, then clang compiles it.

    python3 tests/lookups/clang.py CLANG WORD ..

The counter stands at the entry of the function that looks a property up, before anything is put inline. In C it is
`uint64_t property_lookups`.
"""

import re
import subprocess
import sys

LOOK_UP = "compiled::look::property"
COUNT = """  %lookups = load i64, ptr @property_lookups
  %lookups.more = add i64 %lookups, 1
  store i64 %lookups.more, ptr @property_lookups
"""


def counted(text):
    heads = re.findall(rf'(?m)^define .*@"{LOOK_UP}"\(.*\{{\n(?:[\w.]+:.*\n)?', text)
    if len(heads) != 1:
        raise SystemExit(f"tests/lookups: {len(heads)} places for {LOOK_UP}, and not one")
    return text.replace(heads[0], heads[0] + COUNT) + "\n@property_lookups = global i64 0\n"


def main(clang, *words):
    module = next(word for word in words if word.endswith(".bc"))
    text = f"{module}.ll"
    read = [clang, "--no-default-config", "-x", "ir", module, "-S", "-emit-llvm", "-Xclang", "-disable-llvm-passes", "-o", text]
    subprocess.run(read, check=True)
    with open(text) as file:
        made = counted(file.read())
    with open(text, "w") as file:
        file.write(made)
    return subprocess.run([clang, *(text if word == module else word for word in words)]).returncode


sys.exit(main(*sys.argv[1:]))
