#!/usr/bin/env python3
"""crates.txt from the sources.

    python3 tools/deps.py            write crates.txt
    python3 tools/deps.py --check    exit 1 if crates.txt is not what the sources say, or the layer rule is broken
    python3 tools/deps.py --users NAME..   what a change of these crates proves again

A crate's line lists the crates that its text names, `use NAME::..` and `NAME::f(..)` in code, `Rattle.NAME` in contracts,
definitions, laws and proofs; and the crates that declare the types which its code reaches: those of the functions that it calls,
and of the fields of these. `rt` takes the lines in any order; the file goes by level, a crate's level being one more than the highest
of those it lists, so that what stands on what is seen, and in a level by name.

The layer rule (docs/ARCHITECTURE.md): groups are the prefixes, in the order of GROUPS; a crate names crates of its own group or
of earlier ones. A crate of `laws` has no code and may speak of anything; it counts as of the last group that it names.
"""

import argparse
import glob
import os
import re
import sys

ROOT = os.path.abspath(os.path.join(os.path.dirname(os.path.abspath(__file__)), ".."))

GROUPS = [
    ("base", "tests, orders, sets: definitions and laws that know nothing of the project"),
    ("def", "the definitions: kinds, effects, the transfer, the image"),
    ("lent", "the lent tables, from words up to the world that contracts speak of"),
    ("refuse", "which class of refusal, 1 to 5, what is lent earns"),
    ("state", "a state over its lent tables, and its public calls"),
    ("effect", "the step of each effect over lent tables"),
    ("call", "the call for one instruction"),
    ("image", "the job image, its reading, its listing, and from one to the other"),
    ("laws", "theorems across groups, and no code"),
    ("test", "programs of the gate that replay recorded lists and cases"),
    ("bench", "programs that measure"),
    ("infer", "the program"),
]
# Libraries of the kit that the sources name, beside `std`, which is never listed. A name that is neither here nor a crate's is reported.
KIT = []
LANGUAGE = {"std", "crate", "self", "super"}


# The crates of the repository.
def names():
    return sorted(d for d in os.listdir(os.path.join(ROOT, "crates")) if os.path.isdir(os.path.join(ROOT, "crates", d)))


# The files of a crate that are checked.
def files(crate):
    for part, kind in (("src", "rt"), ("specs", "antt"), ("proofs", "antt")):
        yield from sorted(glob.glob(os.path.join(ROOT, "crates", crate, part, "**", "*." + kind), recursive=True))


# The code of a crate without comments, all its files together.
def code(crate):
    return "\n".join(re.sub(r"(?m)//.*$", "", open(p, encoding="utf-8").read()) for p in files(crate) if p.endswith(".rt"))


# What a code brings in: (crate, name).
def imported(text):
    for head, path, several in re.findall(r"(?m)^(?:pub )?use ([a-z_0-9]+)::((?:\w+::)*)(\w+|\{[^}]*\});", text):
        for name in re.findall(r"(?:\w+::)*(\w+)(?: as \w+)?", several):
            yield head, name


# What the sources declare: of each crate its types with the types of their fields, the types of each function's signature,
# and the crate that each imported name comes from.
def declared(every):
    types, functions, origin = {}, {}, {}
    for crate in every:
        text = code(crate)
        origin[crate] = {name: head for head, name in imported(text)}
        types[crate] = {}
        for name, body in re.findall(r"\b(?:struct|enum) ([A-Za-z0-9_]+)\s*[({]([^})]*)", text):
            types[crate][name] = set(re.findall(r"\b[A-Z][A-Za-z0-9_]*", body))
        functions[crate] = {}
        for name, rest in re.findall(r"\bfn ([a-z_0-9]+)\s*(?:<[^>(]*>)?\s*\(((?:[^{;]|\n)*?)(?:ensures|requires|\{)", text):
            functions[crate].setdefault(name, set()).update(re.findall(r"\b[A-Z][A-Za-z0-9_]*", rest))
    return types, functions, origin


# The crates that declare the types which a crate's code reaches.
def reached(crate, known):
    types, functions, origin = known
    text = code(crate)
    used = set(imported(text))
    used |= {(head, name) for head, name in re.findall(r"(?<![\w:.])([a-z_0-9]+)::([A-Za-z_0-9]+)", text)}
    todo, seen = [], set()
    for head, name in used:
        if head not in types:
            continue
        if name in types[head]:
            todo.append((head, name))
        todo += [(head, t) for t in functions[head].get(name, ())]
    while todo:
        head, name = todo.pop()
        if name not in types.get(head, {}):
            if name not in origin.get(head, {}):
                continue
            head = origin[head][name]
        if (head, name) in seen or head not in types:
            continue
        seen.add((head, name))
        todo += [(head, t) for t in types[head].get(name, ())]
    return {head for head, _ in seen}


# What a crate names.
def named(crate, every):
    found = set()
    for path in files(crate):
        with open(path, encoding="utf-8") as f:
            text = f.read()
        if path.endswith(".rt"):
            text = re.sub(r"(?m)^\s*//.*$", "", text)
            found |= set(re.findall(r"(?m)^(?:pub )?use ([a-z_0-9]+)(?:::|;)", text))
            found |= set(re.findall(r"(?<![\w:.])([a-z_0-9]+)::[a-zA-Z_{]", text))
        else:
            text = re.sub(r"(?m)^\s*--.*$", "", text)
        found |= set(re.findall(r"Rattle\.([a-z_0-9]+)\.", text))
    return {n for n in found if n != crate and (n in every or n in KIT)}


# Libraries that a crate's code brings in and that are neither crates nor of KIT.
def unknown(crate, every):
    text = code(crate)
    own = set(re.findall(r"(?m)^(?:pub )?mod (\w+)", text))
    heads = set(re.findall(r"(?m)^(?:pub )?use ([a-z_0-9]+)(?:::|;)", text))
    return sorted(h for h in heads if h not in every and h not in KIT and h not in LANGUAGE and h not in own)


# Every crate with what it lists.
def read():
    every = names()
    deps = {}
    known = declared(every)
    for crate in every:
        deps[crate] = named(crate, set(every)) | reached(crate, known) - {crate}
    return deps


# The level of each crate.
def levels(deps):
    at = {}

    def level(crate, path):
        if crate in path:
            raise SystemExit("crates name each other in a cycle: " + " ".join(path + [crate]))
        if crate not in at:
            at[crate] = max([level(d, path + [crate]) + 1 for d in deps[crate] if d in deps] or [0])
        return at[crate]

    for crate in deps:
        level(crate, [])
    return at


# What a crate is, from the first comment of its source.
def what(crate):
    for name in ("lib.rt", "main.rt"):
        path = os.path.join(ROOT, "crates", crate, "src", name)
        if os.path.exists(path):
            first = open(path, encoding="utf-8").readline()
            if first.startswith("// "):
                return first[3:].strip()
    return ""


# The group of a crate: the longest prefix that is one.
def group(crate):
    return crate.split("_")[0]


# The text of crates.txt.
def text(deps):
    at = levels(deps)
    lines = ["# Written by tools/deps.py from what each crate names; the gate checks it. By level: a crate stands below those that it lists."]
    for level in range(max(at.values()) + 1):
        lines += ["", "# ---- level %d" % level]
        for crate in sorted(c for c in deps if at[c] == level):
            listed = sorted(d for d in deps[crate] if d in deps)
            kit = [k for k in KIT if k in deps[crate]]
            lines.append(("%s: %s" % (crate, " ".join(listed + kit))).rstrip())
    return "\n".join(lines) + "\n"


# Breaches of the layer rule.
def breaches(deps):
    rank = {name: k for k, (name, _) in enumerate(GROUPS)}
    out, found = [], {}
    for crate in deps:
        if group(crate) not in rank:
            out.append("%s has the prefix of no group" % crate)
        has_code = any(re.search(r"(?m)^\s*(pub )?(extern \"C\" )?fn ", open(p, encoding="utf-8").read()) for p in files(crate) if p.endswith(".rt"))
        if group(crate) == "laws" and has_code:
            out.append("%s is of laws and has code" % crate)
    if out:
        return out

    # the group that a crate counts as: its own, or of laws the last that it names
    def counts(crate):
        if crate not in found:
            if group(crate) == "laws":
                found[crate] = max([counts(d) for d in deps[crate] if d in deps] or [0])
            else:
                found[crate] = rank[group(crate)]
        return found[crate]

    for crate in sorted(deps):
        for d in sorted(deps[crate]):
            if d in deps and counts(d) > counts(crate):
                out.append("%s names %s, which is of a later group" % (crate, d))
    return out


# The crates that name some crates, directly or not.
def users(deps, of):
    found = set(of)
    while True:
        more = {c for c in deps if c not in found and deps[c] & found}
        if not more:
            return found
        found |= more


def main():
    parser = argparse.ArgumentParser(description="crates.txt from the sources")
    parser.add_argument("--check", action="store_true")
    parser.add_argument("--users", nargs="+")
    options = parser.parse_args()
    deps = read()
    if options.users:
        found = users(deps, options.users)
        print("%d crates: %s" % (len(found), " ".join(sorted(found))))
        return 0
    wrong = ["layers: " + line for line in breaches(deps)]
    for crate in deps:
        wrong += ["%s brings in %s, which is no crate here and not in KIT of tools/deps.py" % (crate, name) for name in unknown(crate, set(deps))]
    for line in wrong:
        print(line, file=sys.stderr)
    made = text(deps)
    path = os.path.join(ROOT, "crates.txt")
    if options.check:
        if not os.path.exists(path) or open(path, encoding="utf-8").read() != made:
            print("crates.txt is not what the sources say: run python3 tools/deps.py", file=sys.stderr)
            return 1
    else:
        open(path, "w", encoding="utf-8").write(made)
    return 1 if wrong else 0


if __name__ == "__main__":
    sys.exit(main())
