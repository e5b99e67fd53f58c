#!/usr/bin/env python3
"""Brings the names that the documents cite to the spelling that the sources got: after tools/port/respell.py, by the same renaming.

usage: python3 tools/port/respell_docs.py [FILE ..]      default: README.md and every *.md of docs/, oracle/, vectors/ and tools/
       python3 tools/port/respell_docs.py --laws         lists the laws that got `_is`, as lines of a table

The commits LANDED and b of docs/PORT.md have the same declarations in the same order, file by file; so what stands at one place in the one
is the name of what stands there in the other. In a document the words between backticks are turned. docs/NAMES.md and docs/PORT*.md, which
speak of both spellings, and docs/CHANGES.md are left.
"""

import os
import re
import subprocess
import sys

HERE = os.path.dirname(os.path.abspath(__file__))
ROOT = os.path.abspath(os.path.join(HERE, "..", ".."))
sys.path.insert(0, HERE)

WORD = re.compile(r"[^\W\d][\w'′]*(?:-[\w'′]+)*")
LEFT_OUT = re.compile(r"docs/(NAMES|CHANGES|PORT[\w-]*)\.md$")


def git(*words):
    return subprocess.run(["git", *words], cwd=ROOT, check=True, capture_output=True, text=True).stdout


# The two commits that docs/PORT.md begins with.
def commits():
    with open(os.path.join(ROOT, "docs", "PORT.md"), encoding="utf-8") as f:
        lines = f.read().split("\n")
    return [re.search(r"\b[0-9a-f]{40}\b", line)[0] for line in lines[:2]]


# The names that a file declares, in its order; not those local to a law.
def declared(text):
    found, local = [], None
    for line in text.split("\n"):
        line = re.sub(r"--.*$", "", line).rstrip()
        if not line:
            continue
        indent = len(line) - len(line.lstrip())
        if local is not None and indent > local:
            continue
        local = None
        container = re.match(r"\s*(?:pub )?(?:record|data) ([A-Za-z]\S*)", line)
        if container:
            found.append(container.group(1))
        elif re.search(r"(?:^|\s)where$", line) and not re.match(r"\s*module ", line):
            local = indent
        else:
            named = re.match(r"\s*(?:unfoldable|abbrev) (?:pub )?(\S+)(?: \{[^{}]*\})* :", line) or re.match(r"\s*(?:pub )?((?:[^\s(){}=;,:.|]+ )+)(?:\{[^{}]*\} )*: ", line)
            if named and named.group(1).split()[0] not in ("let", "use", "module"):
                found += named.group(1).split()
    return found


# The files of definitions, laws and lemmas of a commit: path -> text.
def files(commit):
    listed = git("ls-tree", "-r", "--name-only", commit, "crates").split()
    wanted = [p for p in listed if re.match(r"crates/\w+/(specs/.*|proofs/\w+)\.antt$", p)]
    asked = "".join("%s:%s\n" % (commit, p) for p in wanted).encode()
    data = subprocess.run(["git", "cat-file", "--batch"], cwd=ROOT, input=asked, capture_output=True, check=True).stdout
    out, at = {}, 0
    for path in wanted:
        end = data.index(b"\n", at)
        size = int(data[at:end].split()[2])
        out[path] = data[end + 1 : end + 1 + size].decode("utf-8")
        at = end + 1 + size + 1
    return out


# Old name -> new name, and of each where it is declared: (path, old, new).
def renaming():
    landed, turned = map(files, commits())
    names, places = {}, []
    for path in sorted(landed):
        if path not in turned:
            continue
        old, new = declared(landed[path]), declared(turned[path])
        if len(old) != len(new):
            sys.exit("%s declares %d names in the one commit and %d in the other" % (path, len(old), len(new)))
        for a, b in zip(old, new):
            if names.setdefault(a, b) != b:
                sys.exit("%s is %s and %s" % (a, names[a], b))
            places.append((path, a, b))
    return names, places


def snake(name):
    name = re.sub(r"([a-z0-9])([A-Z])", lambda m: m[1] + "_" + m[2].lower(), name.replace("′", "'"))
    return name.replace("-", "_").lower()


def turn(text, names):
    def span(m):
        return m[1] + WORD.sub(lambda w: names.get(w[0], w[0]), m[2]) + m[1]

    return "\n".join(re.sub(r"(`+)([^`]+)\1", span, line) for line in text.split("\n"))


def documents():
    listed = git("ls-files", "--cached", "--others", "--exclude-standard", "*.md").split()
    return [p for p in listed if re.match(r"README\.md$|(docs|oracle|vectors|tools)/", p) and not LEFT_OUT.search(p)]


def main():
    names, places = renaming()
    if sys.argv[1:] == ["--laws"]:
        found = sorted({(a, b, p.split("/")[1], p.split("/specs/")[-1]) for p, a, b in places if "/specs/" in p and b.endswith("_is") and snake(a) != b})
        for a, b, crate, file in found:
            print("| `%s` | `%s` `%s`: `%s` |" % (a, crate, file, b))
        return
    for path in sys.argv[1:] or documents():
        with open(os.path.join(ROOT, path), encoding="utf-8") as f:
            old = f.read()
        new = turn(old, names)
        if new != old:
            with open(os.path.join(ROOT, path), "w", encoding="utf-8") as f:
                f.write(new)
            print(path)


if __name__ == "__main__":
    main()
