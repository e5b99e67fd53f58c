#!/usr/bin/env python3
"""Gives the choice between two computations (def_transfer Monad.antt) a name of its own: `if◌then◌else◌` there becomes `when◌then◌else◌`.

usage: python3 tools/port/rename_when.py [FOLDER]     once, after tools/port/respell.py

The library of today has an `if◌then◌else◌` between two values, and `rt ci` refuses a crate that has another operator of that name. Where a
file brings in the one of Monad.antt, `if b then m else n` becomes `when b then m else n`; in edits too. Nothing else is changed, and no
crate here brings in the library's. It prints each file with how many places changed.
"""

import os
import re
import sys

TOP = sys.argv[1] if len(sys.argv) > 1 else "."
OLD, NEW = "if◌then◌else◌", "when◌then◌else◌"


# A line of antt with its comment left alone.
def turn(line):
    code, dashes, comment = line.partition("--")
    code = code.replace(OLD, NEW)
    if re.search(r"(?<![\w.'-])then(?![\w'-])", code) or re.search(r"(?<![\w.'-])if(?![\w'-])", code):
        code = re.sub(r"(?<![\w.'◌-])if(?![\w'◌-])", "when", code)
    return code + dashes + comment


def main():
    for folder, dirs, files in os.walk(os.path.join(TOP, "crates")):
        dirs[:] = sorted(d for d in dirs if d not in ("out", "data"))
        for name in sorted(files):
            path = os.path.join(folder, name)
            if not name.endswith((".antt", ".edit")):
                continue
            with open(path, encoding="utf-8") as f:
                old = f.read()
            if name.endswith(".antt"):
                new = "\n".join(turn(line) for line in old.split("\n")) if OLD in old else old
            elif re.search(r"(?m)^file: (specs|proofs)/", old):
                new = "\n".join(re.match(r"(?:old|new): ?", line)[0] + turn(line[5:]) if re.match(r"(?:old|new): ", line) else line for line in old.split("\n"))
            else:
                new = old
            if new != old:
                with open(path, "w", encoding="utf-8") as f:
                    f.write(new)
                print("%s: %d" % (os.path.relpath(path, TOP), sum(a != b for a, b in zip(old.split("\n"), new.split("\n")))))


if __name__ == "__main__":
    main()
