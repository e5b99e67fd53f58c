#!/usr/bin/env python3
"""Whether each wrong program still fits its crate, and a try of those of some crates.

    python3 tools/wrong_programs.py --fit [NAME..]   whether each edit of crates/NAME/must-fail fits; with no name of every crate; in a second
    python3 tools/wrong_programs.py NAME..           the same, and then `rt must-fail NAME..`, which has the prover refuse each

An edit is a file of lines `file:`, `old:`, `new:`, as `rt` reads it: each old text stands just once in its file, and the pairs apply one
after the other. `rt ci` tries every edit too, but one that does not fit fails nothing there; here, and in `.ci/run`, it does. Exit
status 1 if one does not fit, or is not refused.
"""

import argparse
import glob
import os
import re
import subprocess
import sys

sys.dont_write_bytecode = True
ROOT = os.path.abspath(os.path.join(os.path.dirname(os.path.abspath(__file__)), ".."))


# What is wrong with an edit, or None.
# Nothing is written: the texts are changed in memory alone.
def slip(edit):
    crate = os.path.dirname(os.path.dirname(edit))
    path, old, pairs, texts, was = None, None, 0, {}, {}
    with open(edit, encoding="utf-8") as f:
        lines = f.read().split("\n")
    for line in lines:
        if line.startswith("file: "):
            path = line[6:].strip()
            if os.path.normpath(path) != path or not path.startswith(("src/", "specs/", "proofs/")):
                return "it edits no file below src/, specs/ or proofs/"
        elif line.startswith("old: "):
            old = line[5:]
        elif line.startswith("new:"):
            if not path or not old:
                return "a 'new:' stands before any 'file:' or 'old:'"
            if path not in texts:
                if not os.path.isfile(os.path.join(crate, path)):
                    return "there is no file %s" % path
                with open(os.path.join(crate, path), encoding="utf-8") as f:
                    texts[path] = was[path] = f.read()
            if texts[path].count(old) != 1:
                return "an old text stands %d times in %s" % (texts[path].count(old), path)
            texts[path] = texts[path].replace(old, line[4:].removeprefix(" "))
            old, pairs = None, pairs + 1
    if not pairs:
        return "it has no 'old:' and 'new:' pair"
    return "it changes nothing" if texts == was else None


# What stands in must-fail/ and is no edit, so that nothing tries it.
def strangers(crate):
    for path in sorted(glob.glob(os.path.join(ROOT, "crates", crate, "must-fail", "*"))):
        if not re.fullmatch(r"[A-Za-z0-9_-][A-Za-z0-9_.-]*\.edit", os.path.basename(path)):
            yield path


# Reads the command line, looks at the edits and counts.
def main():
    parser = argparse.ArgumentParser(description="whether each wrong program fits its crate")
    parser.add_argument("names", nargs="*")
    parser.add_argument("--fit", action="store_true")
    args = parser.parse_args()
    if not args.names and not args.fit:
        parser.error("a crate's name, or --fit")
    edits, wrong = [], 0
    for name in args.names or ["*"]:
        edits += sorted(glob.glob(os.path.join(ROOT, "crates", name, "must-fail", "*.edit")))
        for path in strangers(name):
            wrong += 1
            print("%s is no edit" % os.path.relpath(path, ROOT))
    for edit in edits:
        said = slip(edit)
        if said:
            wrong += 1
            print("%s/%s: BAD EDIT: %s" % (edit.split(os.sep)[-3], os.path.basename(edit)[:-5], said))
    print("%d wrong programs, %d do not fit" % (len(edits), wrong), flush=True)
    if wrong or args.fit:
        return 1 if wrong else 0
    return subprocess.run(["rt", "must-fail", *args.names], cwd=ROOT).returncode


if __name__ == "__main__":
    sys.exit(main())
