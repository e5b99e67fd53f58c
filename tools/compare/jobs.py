#!/usr/bin/env python3
"""Evaluates the definition (crates/*/specs) on recorded library jobs and state operations and compares with the Rust's answers.

Makes a throw-away repository, by default in a folder compare-jobs among the temporary ones (`rt ci` refuses one inside this checkout), with
one more crate, whose tests antt computes; reports each record that differs.
Usage: jobs.py [--jobs N] [--ops N] [--seed S] [--max-words W] [--per-file K] [--show ID]
"""

import argparse
import os
import random
import re
import shutil
import subprocess
import sys
import tempfile
import time

HERE = os.path.dirname(os.path.abspath(__file__))
ROOT = os.path.join(HERE, "..", "..")
sys.path.insert(0, os.path.join(HERE, "..", "gen"))

import parse  # noqa: E402
from words import read_list  # noqa: E402

ABSENT = 0xFFFFFFFF
USES = """use Rattle.std.specs.Prelude.{ℕ, Bool, true, false, List, [], ◌∷◌, T, None, Some}
use Rattle.def_kinds.specs.Kinds as Kinds
use Rattle.def_effects.specs.Effects.{AliasingEffect, Freeze, Mutate, MutateConditionally, MutateTransitive, MutateTransitiveConditionally, Capture, Alias, MaybeAlias, Assign, Create, CreateFrom, ImmutableCapture, CreateFunction, MutateFrozen, MutateGlobal, Impure, Render}
use Rattle.def_effects.specs.declared.MutateVariant.TheVariants as Variant
use Rattle.def_effects.specs.Keys.{eq_list}
use Rattle.def_transfer.specs.Tables.{World}
use Rattle.def_transfer.specs.Instruction.{Instruction}
use Rattle.def_transfer.specs.State as State
use Rattle.def_transfer.specs.Step as Step
use Rattle.def_transfer.specs.Merge.{Entries, merge, merge_from}
use Rattle.def_transfer.specs.Pure.{pure, at}
use Rattle.def_transfer.proofs.Laws.Computing.{computing}
use Rattle.compare.specs.Harness.{place, span, abs, func, ident, diag, key, diag_at, job_words, check_job, op_words, silent, abs_words, flag_words, members_words, result_words, merge_words, merge_from_words}
use Rattle.compare.specs.Harness as H
"""
NAMES = ["Freeze", "Mutate", "MutateConditionally", "MutateTransitive", "MutateTransitiveConditionally", "Capture", "Alias",
         "MaybeAlias", "Assign", "Create", "CreateFrom", "ImmutableCapture", None, "CreateFunction", "MutateFrozen",
         "MutateGlobal", "Impure", "Render"]
HARNESS = "H.place_words H.places_words H.effect_words H.effects_words H.value_words H.set_words H.entries_words H.there H.count_of H.option_word H.key_words H.link_words H.effect_numbers H.functions_words H.diagnostics_words H.bool_word H.runs H.access_words H.end_words H.is_in H.all_in H.interned_words H.same H.job_words H.check_job H.state_words H.op_words H.silent H.abs_words H.flag_words H.members_words H.result_words H.merge_words H.merge_from_words"


# A list as an antt term.
# Numbers and terms alike.
def lst(items):
    return "(" + "".join("%s ∷ " % x for x in items) + "[])"


# An optional number as a term: none where it is absent.
# Keys have them.
def opt(n):
    return "None" if n is None else "(Some %d)" % n


# A place's five words as a term.
# Spans keep FFFFFFFF twice for none.
def place(p):
    return "(place %d %d %d %d %d)" % tuple(p)


# A function as nested `at`: entries of a table over a default.
# Later entries stand outside.
def table(default, entries):
    out = "(λ k. %s)" % default
    for k, x in entries:
        out = "(at %s %d %s)" % (out, k, x)
    return out


# A candidate record as an effect over the world w.
# Diagnostic numbers are looked up in the table as it stands.
def effect(c, places, world):
    code, first, second, k, reason, function, run, count = c
    one, two = places[first] if places else None, places[second] if places else None
    name = NAMES[code]
    if code == 0:
        return "(Freeze %s %d)" % (place(one), reason)
    if code == 1:
        return "(Mutate %s %d)" % (place(one), k)
    if code in (2, 3, 4, 17):
        return "(%s %s)" % (name, place(one))
    if code == 9:
        return "(Create %s (Kinds.kind_at %d) %d)" % (place(two), k, reason)
    if code == 13:
        return "(CreateFunction %s %d %s)" % (lst(place(p) for p in places[run:run + count]), function, place(two))
    if code in (14, 15, 16):
        return "(%s %s %s)" % (name, place(one), world(k))
    return "(%s %s %s)" % (name, place(one), place(two))


# Sets of a state from its pairs, each one number.
# Value 0 means defined with an empty set.
def sets_of(pairs):
    sets = {}
    for i, v in pairs:
        sets[i] = sets.get(i, 0) | (1 << v if v else 0)
    return sets


# The state part of a world as a term.
# Flag, values and sets.
def state(flag, values, pairs):
    vals = table("None", [(v, "(Some (abs %d %d))" % (k, r)) for v, k, r in values])
    sets = table("None", [(i, "(Some %d)" % s) for i, s in sorted(sets_of(pairs).items())])
    return "record { values = %s; sets = %s; is_function_expression = %s }" % (vals, sets, bool_of(flag))


def bool_of(n):
    return "true" if n else "false"


# Identities of the diagnostics of a job: numbered as they first appear.
# Case 0 is told apart by its sentence, case 1 by its name.
def identities(diagnostics):
    seen, out = {}, []
    for d in diagnostics:
        k = (d[0], d[1], d[2] if d[1] == 0 else d[3])
        out.append(seen.setdefault(k, len(seen)))
    return out


# The world that a job starts from, as a term.
# Everything but the instructions.
def world(j):
    h = j["head"]
    places = j["places"]
    ids = identities(j["diagnostics"])
    fixed = lambda d: "(record { identity = %d; instance = %d })" % (ids[d], d)
    functions = table("(func [] [] false)", [(k, "(func %s %s %s)" % (
        lst(place(p) for p in places[f[1]:f[1] + f[2]]), lst(place(p) for p in places[f[3]:f[3] + f[4]]), bool_of(f[0] & 2)))
        for k, f in enumerate(j["functions"])])
    idents = table("(ident false false 0 0 0)", [(k, "(ident %s %s %d %d %d)" % (bool_of(x[0] & 1), bool_of(x[0] & 2), x[1], x[2], x[3]))
                                                for k, x in enumerate(j["identifiers"]) if x != [0, 0, 0, 0]])
    diags = lst("(diag %d %s)" % (ids[k], " ".join(map(str, d))) for k, d in enumerate(j["diagnostics"]))
    cached = []
    for c in j["cached"]:
        code, f, i, k, r, g, run, count, n = c
        caps = [p[0] for p in places[run:run + count]] if code == 13 else []
        cached.append((n, "(Some (key %d %s (Some %d) %d %d %s %s))" % (
            code, opt(None if code in (9, 13) else f), i, k, r, opt(g if code == 13 else None), lst(caps))))
    interned = lst(effect(c, places, fixed) for c in j["interned"])
    return ("(record { state = %s; rest = record { session = record { next = %d; access = %d; span = span %d %d; entries = %d }; "
            "context = record { interned = %s; cached = %s; links = %s; functions = %s; identifiers = %s; transitive = %s; diagnostics = %s }; "
            "work = record { initialized = []; listed = []; freeze_entries = 0; entries = 0 } } })") % (
        state(h[2], j["values"], j["pairs"]), h[3], h[4], h[5], h[6], h[7], interned, table("None", cached),
        table("None", [(v, "(Some %d)" % f) for v, f in j["links"]]), functions, idents, bool_of(h[1]), diags)


# The instructions of a job as terms over the world.
# Each is a function, since diagnostics may be new.
def instructions(j):
    out = []
    for lvalue, own, cands in j["instructions"]:
        es = lst(effect(c, j["places"], lambda d: "(diag_at w %d)" % d) for c in cands)
        out.append("(λ (w : World pure). record { candidates = %s; lvalue = %s; own = %s })" % (
            es, place(j["places"][lvalue]), opt(own - 1 if own else None)))
    return lst(out)


# Answer words of a job without its interned effects, and those as word lists.
# The definition's table keeps their order of arrival, the answer sorts them.
def expected_job(words, j):
    a = parse.job_answer(words, len(j["instructions"]))
    main = []
    for result, entries, effects in a["results"]:
        main += [result, len(effects), entries]
        for e in effects:
            main += effect_words(e)
    main += [a["flag"], a["next"]] + list(a["access"]) + [a["walked"]]
    main.append(len(a["values"]))
    for v in a["values"]:
        main += v
    main.append(len(a["sets"]))
    for i, vs in a["sets"]:
        main += [i, len(vs)] + list(vs)
    main.append(len(a["functions"]))
    for f in a["functions"]:
        main += [len(f)] + list(f)
    main.append(len(a["links"]))
    for l in a["links"]:
        main += l
    main.append(len(a["cached"]))
    for fixed, caps in a["cached"]:
        main += list(fixed) + [len(caps)] + list(caps)
    main += [len(a["interned"]), len(a["diagnostics"])]
    for d in a["diagnostics"]:
        main += d
    return main, [effect_words(e) for e in a["interned"]]


def effect_words(e):
    out = [e["code"]] + list(e["first"]) + list(e["second"]) + [e["kind"], e["reason"], e["mutation"], e["function"], e["identity"], e["instance"], len(e["captures"])]
    for c in e["captures"]:
        out += c
    return out


# The test of one job: its term, and the term that computes its words.
# Both share the arguments.
def job_terms(words, answer, chooser=None):
    j = parse.job(words)
    a = parse.job_answer(answer, len(j["instructions"]))
    n = len(j["identifiers"])
    vs = list(range(1, min(511, max(j["head"][3], a["next"])) + 1)) + [512 + i for i in range(n)]
    main, interned = expected_job(answer, j)
    if chooser:
        main = spoiled(main, chooser.randrange(len(main)))
    args = "%s %s %s %s %s" % (instructions(j), world(j), lst(vs), lst(range(n)), lst(range(len(j["functions"]))))
    return "check_job %s %s %s" % (args, lst(main), lst(lst(x) for x in interned)), "job_words %s" % args


# The test of one state operation.
# The world holds the first state and the session.
def op_terms(words, answer, chooser=None):
    o = parse.operation(words)
    h, args = o["head"], o["args"]
    n = h[7]
    vs = sorted({v[0] for v in o["first"][0] + o["second"][0]} | {v for _, v in o["first"][1] + o["second"][1] if v} | {512 + i for i in range(n)} |
                ({args[0]} if o["op"] == 3 else set()) | ({args[1]} if o["op"] == 4 else set()))
    first = state(h[5], *o["first"])
    session = "record { next = 512; access = %d; span = span %d %d; entries = 0 }" % (h[2], h[3], h[4])
    idents = table("(ident false false 0 0 0)", [(k, "(ident true false 0 0 0)") for k, f in enumerate(o["flags"]) if f & 1])
    w = ("(record { state = %s; rest = record { session = %s; context = record { interned = []; cached = λ n. None; links = λ n. None; functions = λ n. func [] [] false; "
         "identifiers = %s; transitive = false; diagnostics = [] }; work = record { initialized = []; listed = []; freeze_entries = 0; entries = 0 } } })") % (first, session, idents)
    variants = ["Mutate", "MutateConditionally", "MutateTransitive", "MutateTransitiveConditionally"]
    calls = {
        1: lambda: ("abs_words", "State.kind %d" % args[0]),
        2: lambda: ("abs_words", "State.kind_with_span %d (span %d %d)" % tuple(args)),
        3: lambda: ("silent", "State.initialize %d (abs %d %d)" % tuple(args)),
        4: lambda: ("silent", "State.define %d %d" % tuple(args)),
        5: lambda: ("silent", "State.assign %d %d" % tuple(args)),
        6: lambda: ("silent", "State.append_alias %d %d" % tuple(args)),
        7: lambda: ("flag_words", "State.is_defined %d" % args[0]),
        8: lambda: ("members_words", "State.set_of %d" % args[0]),
        9: lambda: ("flag_words", "State.freeze %d %d" % tuple(args)),
        10: lambda: ("result_words", "Step.mutate Variant.%s (place %d 0 0 %d %d)" % (variants[args[0]], args[1], args[2], args[3])),
        11: lambda: ("silent", "State.infer_phi %d %s" % (args[0], lst(args[1:]))),
    }
    where = "%s %s" % (lst(vs), lst(range(n)))
    if o["op"] in calls:
        f, call = calls[o["op"]]()
        term = "op_words %s %s (%s %s)" % (where, f, call, w)
    else:
        def entries(part):
            return "(record { value = %s; set = %s })" % (
                table("None", [(v, "(Some (abs %d %d))" % (k, r)) for v, k, r in part[0]]),
                table("None", [(i, "(Some %d)" % s) for i, s in sorted(sets_of(part[1]).items())]))
        name = "merge" if o["op"] == 12 else "merge_from"
        term = "%s_words %s (%s) %s (%s %s %s)" % (name, where, session, bool_of(h[5]), name, entries(o["first"]), entries(o["second"]))
    if chooser:
        answer = spoiled(list(answer), chooser.randrange(len(answer)))
    return "eq_list (%s) %s" % (term, lst(answer)), term


# Expected words with one number changed, k says which.
# It shows that a test can fail.
def spoiled(words, k):
    return words[:k] + [words[k] + 1] + words[k + 1:]


# The throw-away repository: the crates of this one, and a crate of tests.
# Nothing of it is committed. What was proved of the crates stays in their folders `out`.
def repository(path):
    shutil.rmtree(os.path.join(path, "crates", "compare"), ignore_errors=True)
    os.makedirs(os.path.join(path, "crates", "compare", "src"))
    os.makedirs(os.path.join(path, "crates", "compare", "specs"))
    needed = ["base_tests", "base_orders", "base_sets", "def_kinds", "def_effects", "def_transfer"]
    for name in needed:
        target = os.path.join(path, "crates", name)
        for part in ("src", "specs", "proofs"):
            shutil.rmtree(os.path.join(target, part), ignore_errors=True)
        shutil.copytree(os.path.join(ROOT, "crates", name), target, ignore=shutil.ignore_patterns("out", "must-fail"), dirs_exist_ok=True)
    with open(os.path.join(ROOT, "crates.txt"), encoding="utf-8") as f:
        lines = [line for line in f if line.split(":")[0] in needed]
    with open(os.path.join(path, "crates.txt"), "w", encoding="utf-8") as f:
        f.writelines(lines + ["compare: %s\n" % " ".join(needed)])
    with open(os.path.join(path, "crates", "compare", "src", "lib.rt"), "w") as f:
        f.write("// Tests.\n#![tactic(auto)]\n")
    shutil.copy(os.path.join(HERE, "harness.txt"), os.path.join(path, "crates", "compare", "specs", "Harness.antt"))


# Runs the check of the throw-away crate and returns what it prints.
# Tests that fail show as errors with the test's name.
def check(path, *words):
    run = subprocess.run(["rt", "check", *words], cwd=os.path.join(path, "crates", "compare"), stdout=subprocess.PIPE, stderr=subprocess.STDOUT, text=True)
    return run.stdout, run.returncode


def main():
    ap = argparse.ArgumentParser(description=__doc__)
    ap.add_argument("--jobs", type=int, default=400)
    ap.add_argument("--ops", type=int, default=300)
    ap.add_argument("--seed", type=int, default=1)
    ap.add_argument("--max-words", type=int, default=700)
    ap.add_argument("--per-file", type=int, default=20)
    ap.add_argument("--show", default=None, help="job-K or op-K: print what the definition computes")
    ap.add_argument("--self-test", action="store_true", help="change one number of each expected answer: every record must then differ")
    ap.add_argument("--work", default=os.path.join(tempfile.gettempdir(), "compare-jobs"))
    args = ap.parse_args()
    chooser = random.Random(args.seed)
    tests = []
    for kind, name, count, terms in [("job", "jobs.bin", args.jobs, job_terms), ("op", "ops.bin", args.ops, op_terms)]:
        with open(os.path.join(ROOT, "vectors", name), "rb") as f:
            records = read_list(f.read())
        small = [k for k, (i, a) in enumerate(records) if len(i) + len(a) <= args.max_words]
        random.Random(args.seed).shuffle(small)
        for k in small[:count]:
            tests.append(("%s-%d" % (kind, k), terms, records[k]))
    if args.show:
        tests = [t for t in tests if t[0] == args.show]
    repository(args.work)
    specs = os.path.join(args.work, "crates", "compare", "specs")
    mods = ["Harness"]
    for start in range(0, len(tests), args.per_file):
        mod = "Tests%d" % (start // args.per_file)
        mods.append(mod)
        with open(os.path.join(specs, mod + ".antt"), "w") as f:
            f.write(USES)
            for name, terms, (given, answer) in tests[start:start + args.per_file]:
                test, shown = terms(given, answer, chooser if args.self_test else None)
                if args.show:
                    f.write("\ndata Shown : List ℕ → Type 0 where\n  it : (l : List ℕ) → Shown l\n\n%s : Shown (%s)\nunfolding computing %s\n%s = ?it\n" % (name, shown, HARNESS, name))
                else:
                    f.write("\n%s : T (%s)\nunfolding computing %s\n%s = tt\n" % (name, test, HARNESS, name))
    with open(os.path.join(specs, "Lib.antt"), "w") as f:
        f.write("".join("pub mod %s\n" % m for m in mods))
    started = time.time()
    out, status = check(args.work, *(["--allow-holes"] if args.show else []))
    took = time.time() - started
    if args.show:
        print(out)
        return
    failed = re.findall(r"error: `((?:job|op)-\d+)`: (.*(?:\n  .*)*)", out)
    bad = sorted({name for name, text in failed if "expected type `⊥`" in text or "are `⊥` (expected)" in text})
    for name in bad:
        print("DIFFERENT", name)
    others = [e for e in re.findall(r"error: .*", out) if not any(e.startswith("error: `%s`" % name) for name in bad)]
    if others or (status and not bad):
        print(out[-3000:])
        sys.exit(1)
    if args.self_test:
        print("self-test: %d of %d spoiled answers differ" % (len(bad), len(tests)))
        sys.exit(0 if len(bad) == len(tests) else 1)
    jobs = sum(t[0].startswith("job") for t in tests)
    print("%d jobs and %d state operations compared, %d differ, %.1f s" % (jobs, len(tests) - jobs, len(bad), took))
    sys.exit(1 if bad else 0)


main()
