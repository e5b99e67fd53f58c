#!/usr/bin/env python3
"""What the docs cite is there.

    python3 tools/trace.py            check each citation of README.md and docs/*.md; exit 1 and a line for each that is wrong
    python3 tools/trace.py --believe  how many lines of definitions there are, by group, and how many each promise rests on

A citation is one of these, in backticks:

    `crate` `File.antt`: `name`, `name` (a remark), `name`    definitions, declared in crates/crate/specs/File.antt
    `crate` `Laws/File.antt`: `name`                          laws, declared in crates/crate/proofs/Laws/File.antt
    `crates/crate/specs/File.antt`: `name`                    the same, by its path
    `crate::name`, `crate::Type::method`                      a function, a type or a constant of crates/crate/src

A name that a file only imports counts as wrong there. Code, and any path that begins with crates/, tools/, docs/, oracle/, vectors/
or examples/, is checked without backticks too; a path with NAME in it stands for any crate, one with `*` must match something, and one
into a crate's out/ is made by rt. docs/NAMES.md, docs/PORT*.md and docs/DESIGN-PASS.md have old names and docs/CHANGES.md those of its day, so they are left out.
"""

import argparse
import glob
import os
import re
import sys

sys.dont_write_bytecode = True
ROOT = os.path.abspath(os.path.join(os.path.dirname(os.path.abspath(__file__)), ".."))
sys.path.insert(0, os.path.join(ROOT, "tools"))

import deps  # noqa: E402

LEFT_OUT = re.compile(r"(NAMES|CHANGES|DESIGN-PASS|PORT[\w-]*)\.md$")
FOLDERS = "crates|tools|docs|oracle|vectors|examples"
# What --believe asks for: the plain definition, what lent words mean, and promises; each with the file of definitions that it names first.
PROMISES = [
    ("an instruction, on plain tables", "def_transfer", "Instruction"),
    ("what lent words mean", "lent_context", "Abstract"),
    ("the call for an instruction", "call_means", "Promise"),
    ("`infer`, from bytes to bytes", "image_outcome", "Promise"),
    ("the calls on a state", "state_calls", "Plain"),
    ("the calls on two states", "state_pairs", "Promise"),
]


# The text of a file below the root.
def read(path):
    with open(os.path.join(ROOT, path), encoding="utf-8") as f:
        return f.read()


# ---- what there is

# The names that a file of definitions or laws declares: not those that it imports, nor those local to a proof.
def declared(path):
    found, local = set(), None
    for line in read(path).split("\n"):
        line = re.sub(r"--.*$", "", line).rstrip()
        if not line:
            continue
        indent = len(line) - len(line.lstrip())
        if local is not None and indent > local:
            continue
        local = None
        container = re.match(r"\s*(?:pub )?(?:record|data) ([A-Za-z]\S*)", line)
        if container:
            found.add(container.group(1))
        elif re.search(r"(?:^|\s)where$", line) and not re.match(r"\s*module ", line):
            local = indent
        else:
            named = re.match(r"\s*(?:unfoldable|abbrev) (?:pub )?(\S+)(?: \{[^{}]*\})* :", line) or re.match(r"\s*(?:pub )?((?:[^\s(){}=;,:.|]+ )+)(?:\{[^{}]*\} )*: ", line)
            if named and named.group(1).split()[0] not in ("let", "use", "module"):
                found.update(named.group(1).split())
    return found


# The functions, methods, types, traits and constants of a crate's code; a method as Type::method.
def code(crate):
    found = set()
    for path in glob.glob(os.path.join(ROOT, "crates", crate, "src", "**", "*.rt"), recursive=True):
        owner = ""
        for line in read(path).split("\n"):
            m = re.match(r"impl (\w+)", line)
            if m:
                owner = m.group(1) + "::"
            elif line == "}":
                owner = ""
            m = re.match(r'\s*(?:pub )?(?:extern "C" )?(fn|struct|enum|trait|const|type) (\w+)', line)
            if m:
                found.add((owner if m.group(1) == "fn" else "") + m.group(2))
    return found


# ---- what the docs cite

# The documents that are checked.
def documents():
    return ["README.md"] + sorted("docs/" + n for n in os.listdir(os.path.join(ROOT, "docs")) if n.endswith(".md") and not LEFT_OUT.match(n))


# What is wrong with the definitions and laws that a line cites.
def wrong_specs(line, crates, known):
    line = re.sub(r"`crates/([a-z_0-9]+)/(?:specs/|proofs/(?=Laws/))((?:Laws/)?[A-Z]\w*\.antt)`", r"`\1` `\2`", line)
    cited = r"(?:`([a-z_0-9]+)` )?`((?:Laws/)?[A-Z]\w*\.antt)`(?:: ((?:`[^`]+`(?: \([^()]*\))?(?:, )?)+))?"
    for crate, name, names in re.findall(cited, line):
        if crate not in crates:
            yield "%s stands behind no crate" % name if not crate else "there is no crate %s (before %s)" % (crate, name)
            continue
        path = os.path.join("crates", crate, "proofs" if name.startswith("Laws/") else "specs", name)
        if not os.path.exists(os.path.join(ROOT, path)):
            yield "there is no %s" % path
            continue
        if path not in known:
            known[path] = declared(path)
        for one in re.findall(r"`([^`]+)`", re.sub(r"\([^()]*\)", "", names)):
            if one not in known[path]:
                yield "%s does not declare %s" % (path, one)


# What is wrong with the code that a line cites.
def wrong_code(line, crates, known):
    for crate, name in re.findall(r"(?<![\w:.])([a-z_0-9]+)::(\w+(?:::\w+)?)", line):
        if crate in deps.KIT or crate in deps.LANGUAGE:
            continue
        if crate not in crates:
            yield "there is no crate %s (in %s::%s)" % (crate, crate, name)
            continue
        if crate not in known:
            known[crate] = code(crate)
        if name not in known[crate]:
            yield "crates/%s/src has no %s" % (crate, name)


# What is wrong with the paths that a line names.
def wrong_paths(line):
    for path in re.findall(r"(?<![\w./-])((?:%s)/[\w./*+-]*)" % FOLDERS, line):
        path = path.rstrip(".")
        if "NAME" not in path and "/out/" not in path and not glob.glob(os.path.join(ROOT, path)):
            yield "there is no %s" % path


# Checks every document: how many citations there are, and a line for each that is wrong.
def check():
    crates = set(deps.names())
    specs, sources = {}, {}
    wrong, count = [], 0
    for document in documents():
        for number, line in enumerate(read(document).split("\n"), 1):
            count += len(re.findall(r"`[^`]+`", line))
            for what in [*wrong_specs(line, crates, specs), *wrong_code(line, crates, sources), *wrong_paths(line)]:
                wrong.append("%s:%d: %s" % (document, number, what))
    return wrong, count


# ---- how much must be believed

# The files of definitions of a crate: all of specs/ but the lists of modules.
def definitions(crate):
    paths = sorted(glob.glob(os.path.join(ROOT, "crates", crate, "specs", "*.antt")))
    return [os.path.relpath(p, ROOT) for p in paths if os.path.basename(p) not in ("Lib.antt", "Laws.antt")]


# How many lines a file has, and how many of them define something: no comment, no import, not empty.
def lines(path):
    every = read(path).rstrip("\n").split("\n")
    return len(every), sum(1 for line in every if line.strip() and not re.match(r"\s*(--|(pub )?use )", line))


# The files of definitions that a file names, directly or not, with itself.
def reached(path):
    found, todo = set(), [path]
    while todo:
        at = todo.pop()
        if at in found or not os.path.exists(os.path.join(ROOT, at)):
            continue
        found.add(at)
        todo += [os.path.join("crates", crate, "specs", name + ".antt") for crate, name in re.findall(r"Rattle\.([a-z_0-9]+)\.specs\.([A-Z]\w*)", read(at))]
    return found


# One line of the count: files, lines, lines that define something.
def counted(label, paths):
    sizes = [lines(p) for p in paths]
    print("%-36s %5d %6d %6d" % (label, len(sizes), sum(a for a, _ in sizes), sum(b for _, b in sizes)))


# Prints the count by group, and what each promise rests on.
def believe():
    print("%-36s %5s %6s %6s" % ("definitions of the group", "files", "lines", "bare"))
    every = []
    for group, _ in deps.GROUPS:
        paths = [p for crate in deps.names() if deps.group(crate) == group for p in definitions(crate)]
        if paths:
            counted(group, paths)
        every += paths
    counted("all", every)
    laws = glob.glob(os.path.join(ROOT, "crates", "*", "proofs", "Laws", "*.antt"))
    counted("(laws, which are checked)", [os.path.relpath(p, ROOT) for p in laws])
    print("\nwhat the promise rests on")
    for label, crate, name in PROMISES:
        counted(label, reached(os.path.join("crates", crate, "specs", name + ".antt")))
    print("\nbare: without comments, imports and empty lines")


# Reads the command line.
def main():
    parser = argparse.ArgumentParser(description="what the docs cite is there")
    parser.add_argument("--believe", action="store_true")
    options = parser.parse_args()
    if options.believe:
        believe()
        return 0
    wrong, count = check()
    for line in wrong:
        print("trace: " + line, file=sys.stderr)
    print("trace: %d marked words in %d documents, %d wrong" % (count, len(documents()), len(wrong)))
    return 1 if wrong else 0


if __name__ == "__main__":
    sys.exit(main())
