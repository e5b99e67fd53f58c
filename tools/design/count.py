#!/usr/bin/env python3
"""Counts the places of docs/DESIGN-PASS.md in crates/*/src: `python3 tools/design/count.py [COMMIT]` (the working tree without one)."""
import re
import subprocess
import sys

ARGUMENTS = [a for a in sys.argv[1:] if not a.startswith("-")]
COMMIT = ARGUMENTS[0] if ARGUMENTS else None


def sources(suffix="/src/"):
    command = ["git", "ls-tree", "-r", "--name-only", COMMIT] if COMMIT else ["git", "ls-files"]
    names = subprocess.run(command, capture_output=True, text=True, check=True).stdout.split("\n")
    for name in names:
        if name.startswith("crates/") and suffix in name:
            if COMMIT:
                text = subprocess.run(["git", "show", f"{COMMIT}:{name}"], capture_output=True, text=True, check=True).stdout
            else:
                try:
                    text = open(name, encoding="utf-8").read()
                except FileNotFoundError:
                    continue
            yield name, text


FILES = [(n, t) for n, t in sources() if n.endswith(".rt")]
FUNCTION = re.compile(r"^ *(?:pub )?fn (\w+)(.*?)\{$", re.M | re.S)
FUNCTIONS = [(n, m.group(1), m.group(2)) for n, t in FILES for m in FUNCTION.finditer(t)]


def show(title, places):
    print(f"{len(places):4}  {title}")
    if "-v" in sys.argv:
        for place in places:
            print("        ", place)


def lines(pattern):
    found = re.compile(pattern, re.M)
    return [f"{n}: {m.group(0).strip()}" for n, t in FILES for m in found.finditer(t)]


def functions(test):
    return [f"{n}: {f}" for n, f, head in FUNCTIONS if test(f, head)]


CLASS = re.compile(r"class|refusal|earns|lowest|stray|words_below|worst|accepted|_records|refus")
print("point 1")
show("enums of the shape of Option or Result (Found, Entry, Spot)", lines(r"^pub enum (Found|Entry|Spot)\b"))
show("structs with a refusal's number beside a value", lines(r"^ +(pub )?refusal: u32,$"))
show("functions that answer a refusal or a class as u32", functions(lambda f, h: re.search(r"-> u32\b", h) and CLASS.search(f + h)))
show("limits as u64, 0 for none", functions(lambda f, h: re.search(r"-> u64\b", h) and "limit" in f or re.search(r"\blimit: u64", h)))
show("yes or no as u32", functions(lambda f, h: re.search(r"-> u32\b", h) and re.search(r"uses|is_code|one_if|^flag|_code$|fault", f)))
print("point 2")
show("functions whose name ends in a width (32, 64, 8)", functions(lambda f, h: re.search(r"(?<!\d)(8|32|64)$", f)))
names = {}
for n, f, h in FUNCTIONS:
    names.setdefault(f, []).append(n)
same = [f"{f}: {', '.join(sorted(set(ns)))}" for f, ns in sorted(names.items()) if len(set(ns)) > 1 and f != "main"]
show("names of functions that stand in more than one crate", same)
print("point 3")
show("while loops", lines(r"^ *while .*$"))
show("for loops", lines(r"^ *for .* in .*\{$"))
print("point 4")
CONVERSION = r"^(compare_numbers|first|is_less|wide\w*|code|of_code|kind_word|kind_of_word|kind_at|kind_code|variant_of|result_code|flag\w*|same_span|joined|get8|below|at_most|same|either|larger|more|plus|one_more|one_less|half|word64|byte|most\w*)$"
show("comparisons and conversions by hand", functions(lambda f, h: re.match(CONVERSION, f)))
print("point 5")
show("functions that take values and sets", functions(lambda f, h: re.search(r"\bvalues\d?: &", h) and re.search(r"\bsets\d?: &", h)))
show("functions that take values, sets, context and output", functions(lambda f, h: all(re.search(rf"\b{p}: &", h) for p in ("values", "sets", "context", "output"))))
print("point 6")
show("functions that take captures or places with their count in word 0", functions(lambda f, h: re.search(r"\b(captures|places|taken): &\[u32\]", h)))
show("functions that take a buffer and a place in it", functions(lambda f, h: re.search(r"buffer: &mut \[u8\]", h) and re.search(r"\bat: usize", h)))
print("point 7")
show("functions that take a number of what to do (op, operation, kind: u32)", functions(lambda f, h: re.search(r"\b(op|operation|kind): u32", h)))
print("point 8")
answers = [(n, t) for n, t in sources("/proofs/") if n.endswith("/Answers.antt")]
print(f"{len(answers):4}  files of answers, {sum(t.count(chr(10)) for n, t in answers)} lines")
