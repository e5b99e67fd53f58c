#!/usr/bin/env python3
"""Puts the code of all libraries into one crate, a module each and no contracts, for the names of all goals at once.

usage: python3 tools/port/merge.py OUT      then, in OUT/crates/merged:  rt check --generated DIR --old-names
       (it stops after DIR/names.json is written: nothing of that crate is proved)
"""
import os
import re
import sys

OUT = sys.argv[1]
HERE = os.path.dirname(os.path.abspath(__file__))
CRATES = sorted(os.listdir("crates"))
with open(os.path.join(HERE, "respell.py"), encoding="utf-8") as f:
    exec(f.read().split("def functions(text):")[1].join(["def functions(text):", ""]).split("def turn_source")[0])  # its reader of functions


def bare(text):
    parts, last = [], 0
    for _, end, stop in functions(text):
        clauses = re.search(r"\n *(ensures|requires|ghost)\b", text[end:stop])
        parts += [text[last:end], (text[end : end + clauses.start()] if clauses else text[end:stop]) + "\n"]
        last = stop
    text = re.sub(r"^ghost use [^;]*;\n", "", "".join(parts) + text[last:], flags=re.M).replace("#![tactic(auto)]\n", "")
    text = re.sub(r"^(\s*(?:pub )?use )(\w+)(::|;| as )", lambda m: m[1] + ("crate::" if m[2] in CRATES else "") + m[2] + m[3], text, flags=re.M)
    text = re.sub(r"(?<![\w:])(\w+)::(?=\w)", lambda m: ("crate::" if m[1] in CRATES else "") + m[1] + "::", text)
    return text.replace("crate::crate::", "crate::")


os.makedirs(os.path.join(OUT, "crates", "merged", "src"))
modules = []
for crate in CRATES:
    path = os.path.join("crates", crate, "src", "lib.rt")
    if os.path.exists(path):
        with open(path, encoding="utf-8") as f:
            text = bare(f.read())
        with open(os.path.join(OUT, "crates", "merged", "src", crate + ".rt"), "w", encoding="utf-8") as f:
            f.write(text)
        modules.append(f"pub mod {crate};")
with open(os.path.join(OUT, "crates", "merged", "src", "lib.rt"), "w", encoding="utf-8") as f:
    f.write("\n".join(modules) + "\n")
with open(os.path.join(OUT, "crates.txt"), "w", encoding="utf-8") as f:
    f.write("merged:\n")
