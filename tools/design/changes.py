#!/usr/bin/env python3
"""Writes the last part of docs/DESIGN-PASS.md, from the line '## What changed in contracts' on: what differs from a commit, old beside new.

usage: python3 tools/design/changes.py COMMIT CONTRACTS

CONTRACTS is the kit's port/contracts.py, which compares the contracts of two trees.
"""
import json
import os
import re
import subprocess
import sys
import tempfile

COMMIT, CONTRACTS = sys.argv[1:]
PAGE = "docs/DESIGN-PASS.md"
MARK = "## What changed in contracts"
# Words that are the library's now: a definition that differs by these alone is the same.
WORDS = {"none": "None", "some": "Some", "Order": "Ordering", "Same": "Equal", "More": "Greater", "Spot": "Result ℕ ℕ", "Found": "Option ℕ", "Entry": "Option AbstractValue", "Nowhere": "None", "Absent": "None", "Present": "Some"}


def renamed(text):
    text = re.sub(r"\((?:Cells\.)?option_of ([\w.]+)\)|(?:Cells\.)?option_of ([\w.]+)", lambda m: m.group(1) or m.group(2), text)
    text = re.sub(r"(?<![\w\-.'])(\w+)(?![\w\-'])", lambda m: WORDS.get(m.group(1), m.group(1)), text)
    return re.sub(r"\s+", " ", text)


def short(texts):
    return " ".join(str(t) for t in texts) if isinstance(texts, list) else str(texts)


with tempfile.TemporaryDirectory() as folder:
    archive = subprocess.run(["git", "archive", COMMIT], capture_output=True, check=True).stdout
    subprocess.run(["tar", "-x", "-C", folder], input=archive, check=True)
    got = subprocess.run([sys.executable, CONTRACTS, folder, os.getcwd(), "--json"], capture_output=True, text=True).stdout
r = json.loads(got)

out = [MARK, "", f"Written by `python3 tools/design/changes.py {COMMIT[:7]} CONTRACTS`, where CONTRACTS is the kit's port/contracts.py. {len(r['contracts changed'])} contracts and {len(r['signatures changed'])} signatures differ, {r['contracts the same']} contracts are the same; no function has fewer clauses, none is no longer public.", ""]

out += ["### Functions that are no longer there", "", "Each private one went into the body of its caller, and what it promised stands in that caller's contract; the public ones of the libraries are:", "", "| function | what states its promise now |", "|---|---|"]
NOW = {
    "base_search compare_numbers": "`cmp` of the library; `base_search` `Laws/Comparings.antt`: `numbers_compared`",
    "base_search first": "`then` of the library (`ordering_then`, which the definition `first` is)",
    "lent_slices wide32": "`as usize`",
    "lent_slices get32": "`lent_slices::get_or`", "lent_slices get64": "`lent_slices::get_or`",
    "lent_slices set32": "`lent_slices::set`", "lent_slices set64": "`lent_slices::set`",
    "lent_copies clear32": "`fill` of the library; `lent_copies` `Laws/Copy.antt`: `cleared`", "lent_copies clear64": "the same",
    "lent_copies copy32": "`lent_copies::copy`", "lent_copies copy64": "`lent_copies::copy`",
    "lent_values Entry join": "`lent_values::join_entries`", "lent_values Entry or_default": "`lent_values::or_default`",
    "refuse_instruction is_code": "`==`", "state_calls either": "the language's own or", "state_pairs merged_flag": "the contract of `state_merge_calls::merge`",
    "call_apply_lent without_session": "the contract of `call_apply_lent::apply`",
    "effect_freeze with_entries": "the counts of `lent_world::World::run` are written where they stand: the contracts of `effect_freeze::walk` and `effect_walk::freeze_function_captures_transitive`",
    "effect_walk freeze_value": "`state_freeze::freeze_value`, with the same contract",
    "effect_parts with_session": "the session of `lent_world::World::run` is written where it stands: the contracts of the functions that change it",
    "image_decode kind_at": "`def_kinds::ValueKind::of_code`", "image_job no_job": "`image_job` `Reading.antt`: `said_of`", "image_run refused": "`image_pieces` `Pieces.antt`: `answer_of`",
    "image_class2 header_word": "`image_class2::word`", "image_class2 size_of": "`image_class2::Section::size`",
    "lent_diagnostics larger": "`max` of the library",
    "lent_keys number_in": "`lent_keys::Numbers::get`", "lent_keys taken": "`lent_keys::WholeKey::captures`",
    "lent_search compare_effect": "`lent_key_order::compare_keys` of what `lent_search::interned_key` answers", "lent_search compare_key": "`lent_key_order::compare_keys` of what `lent_search::cached_key` answers",
    "refuse_entries identifier_out_of_range": "nothing called it: its words stand in `state_calls::outside`", "refuse_instruction all_words": "`refuse_instruction::effect_words`, which has the same contract", "refuse_order is_less": "`is_ge` of the library; the definition of that name stays",
    **{f"image_text {n}": f"`image_text::Text::{n}`" for n in ("put_absent", "put_byte", "put_column", "put_newline", "put_number", "put_line", "put_decimal")}, "image_text put_text": "`image_text::Text::put_bytes`",
    **{f"lent_tables {n}": f"`lent_tables::Table::{n}`" for n in ("field", "put_field", "place_in", "put_place")},
}
seen = set()
for row in r["functions not found again"]:
    crate, path, rest = row.split(" ", 2)
    name = rest.split(" (")[0]
    key = f"{crate} {name}"
    text = subprocess.run(["git", "show", f"{COMMIT}:crates/{crate}/{path}"], capture_output=True, text=True).stdout
    last = name.split()[-1]
    if not re.search(rf"pub fn {re.escape(last)}\b", text) or path.endswith("main.rt") or key in seen:
        continue
    seen.add(key)
    out.append(f"| `{crate}::{'::'.join(name.split())}` | {NOW.get(key, 'the contracts of its callers: its body stands there as an operator, a closure or a method of the library')} |")
DEFINED = {
    "call_apply_lent answer_of": "`told_beside` (`call_apply_lent` `Answers.antt`)", "call_apply_lent applied_with": "the same",
    "call_parts copied_inside_from": "`copied_words` (`lent_tables` `Words.antt`)", "effect_function_context copied_places": "the same", "lent_effects copied_from": "the same",
    "call_parts kept_entries": "`keep_entries` (`def_transfer` `Instruction.antt`), which the contract cites itself now",
    "effect_acts sequel": "`follow` of the same file, and `answers` (`laws_monad` `Answers.antt`)",
    "effect_flow refuses": "`flows` of the same file, by the kind of flow",
    "effect_freeze with_entries": "`freezing` and `walk` of the definition, which the contracts cite themselves",
    "effect_parts writes": "`is_written` (`def_transfer` `Step.antt`), which the contract cites itself now",
    "effect_walk frozen": "`frozen` of `state_ops` `Lists.antt`, with the same text",
    "effect_walk Enters": "the contract of `effect_walk::freeze_function_captures_transitive`: `Does` at each depth that suffices", "effect_walk Still": "the same contract, whose equation has flag, session, marks and what is listed, and `Walked` of the same file", "effect_walk walking": "the same contract",
    "image_class3_candidates codes_of": "`used_words` (`def_image` `Refusals.antt`), whose columns it was",
    "lent_keys option_of": "none needed: the definitions speak of the library's `Option`", "lent_values option_of": "the same",
    "lent_world after": "`seen` (`lent_world` `Promise.antt`)", "lent_world before": "the same",
    "refuse_instruction middle_word": "`record_class` of `effect_limit` (`refuse_words` `Classes.antt`, `refuse_instruction` `EffectClasses.antt`): seven words of it", "refuse_instruction place_word": "the same: five words of it",
    "refuse_words limit_of": "none needed: limits are `Option` in code and definitions",
    "state_calls kind_answer": "`outcome` (`state_calls` `Answers.antt`)", "state_calls mutation_answer": "the same", "state_calls test_answer": "the same",
}
gone = r["definitions"]["gone"]
out += ["", "### Definitions that are no longer there", "", "| definition | what states it now |", "|---|---|"]
for g in gone:
    name = " ".join(map(str, g[:2]))
    out.append(f"| `{name}` | {DEFINED[name]} |")


def lemmas(commit):
    """The public lemmas of proofs/, by crate."""
    found = {}
    command = ["git", "ls-tree", "-r", "--name-only", commit] if commit else ["git", "ls-files"]
    for name in subprocess.run(command, capture_output=True, text=True, check=True).stdout.split("\n"):
        if not re.match(r"crates/\w+/proofs/.*\.antt$", name) or re.search(r"/(Answers|Invariants|Proof|Lib|Laws)\.antt$", name) or not commit and not os.path.exists(name):
            continue
        text = subprocess.run(["git", "show", f"{commit}:{name}"], capture_output=True, text=True).stdout if commit else open(name, encoding="utf-8").read()
        for lemma in re.findall(r"^ *(?:abbrev |unfoldable )?pub (?:record |data )?([^\s:(]+)", text, re.M):
            if lemma not in ("mod", "use", "record", "data"):
                found.setdefault(lemma, set()).add(name.split("/")[1])
    return found


old, now = lemmas(COMMIT), lemmas(None)
lost = {}
for lemma, crates in old.items():
    for crate in crates - now.get(lemma, set()):
        lost.setdefault(crate, []).append(lemma)
out += ["", "### Lemmas that are no longer there", "", f"{sum(map(len, lost.values()))} of {sum(map(len, old.values()))}, by crate (some are private now, or stand in another crate). None was a theorem that README or docs/ states (docs/NAMES.md has three of them, `one_more_is`, `wrong_context_is` and `values_of_is`, among the names that changed): each was a step in the proof of one function of its crate (a turn of a loop that is `any`, `all`, a `for` over members or a method now; a way through a `match` or an `if` that the check finds alone; a way in which a part was refused, said of lists), and the contract of that function, which stands, states what the step was for.", ""]
out += [f"- `{crate}`: " + ", ".join(f"`{n}`" for n in sorted(names)) for crate, names in sorted(lost.items())]
same = [d for d in r["definitions"]["changed"] if renamed(short(d[-2])) == renamed(short(d[-1]))]
other = [d for d in r["definitions"]["changed"] if d not in same]
out += ["", "### Definitions that differ only by the library's words", "", "`None`, `Some`, `Ordering` and `Result` in place of `none`, `some`, `Order`, `Found`, `Entry` and `Spot`, and without `option_of`:", "", ", ".join(f"`{d[0]} {d[1]}`" for d in same) + "."]
out += ["", "### Other definitions that changed", ""]
for d in other:
    out += [f"- `{d[0]} {d[1]}`", "  ```", "  - " + short(d[-2]), "  + " + short(d[-1]), "  ```"]
out += ["", "### Constants and laws of code", ""]
for d in r["ghost items and constants"]["changed"]:
    out.append(f"- `{' '.join(d[:-2])}`: `{short(d[-2])}` → `{short(d[-1])}`")
for g in r["ghost items and constants"]["gone"]:
    constant = " ".join(map(str, g))
    now = {"lent_layout const SAVED": "`SAVED_WORDS as u32`", "lent_layout const SAVED_FROM": "`INTERNED_COUNT as u32`"}.get(constant, "a variant of `image_class2::Section`" if constant.startswith("image_class") else None)
    out.append(f"- `{constant}` is gone" + (f": {now}" if now else ""))
out += ["", "### Signatures", ""]
for name, old, new in r["signatures changed"]:
    out += [f"- `{name}`", "  ```", "  - " + old, "  + " + new, "  ```"]
out += ["", "### Contracts", ""]
for row in r["contracts changed"]:
    name, parts = row[0], row[1:]
    out += [f"- `{name}`", "  ```"]
    for sign, label, clauses in (("-", "requires", parts[0]), ("-", "ensures", parts[1]), ("+", "requires", parts[2]), ("+", "ensures", parts[3])) if len(parts) == 4 else ():
        for c in clauses:
            out.append(f"  {sign} {label} {c[0]} {{ {c[1]} }}")
    out.append("  ```")

page = open(PAGE, encoding="utf-8").read()
at = page.find(MARK)
page = (page if at < 0 else page[:at]).rstrip("\n") + "\n\n" + "\n".join(out).rstrip("\n") + "\n"
open(PAGE, "w", encoding="utf-8").write(page)
print(f"{len(out)} lines")
