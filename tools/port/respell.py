#!/usr/bin/env python3
"""Brings the repository's own names to the spelling of the Rattle of docs/PORT.md, after the kit's port.py has run on it.

usage: python3 tools/port/respell.py [FOLDER]

Run once, at the top (or with the top's FOLDER), on what port.py left of the commit that docs/PORT.md calls LANDED.

1. Definitions, laws, fields and local names of specs/ and of lemma files are in snake case: `freezeAll` is `freeze_all`, `set-other` is `set_other`.
   Names of functions in src/, of goals and of the library stay. Where a law had its definition's name in the other spelling (`to-freeze` of `toFreeze`),
   the definition gets the plain name and the law `_is` after it.
2. What a lent reference holds is written as the language writes it: `old xs` and `new xs` are `xs.old` and `xs.new` of a `&mut`, `xs.now` of a `&`;
   the abbreviations of contracts that took whole references take what these hold (PASSED below).
3. In edits the same names are turned, and in comments.

It prints names that fall together, and changes nothing but text below crates/.
"""

import collections
import os
import re
import sys

TOP = sys.argv[1] if len(sys.argv) > 1 else "."
CRATES = sorted(os.listdir(os.path.join(TOP, "crates")))
WORD = re.compile(r"[^\W\d][\w'′]*(?:-[\w'′]+)*")
DEFINED = re.compile(r"^\s*(?:(?:pub|abbrev|unfoldable|private)\s+)*([^\s(){}\[\],.;:λ→]+)\s*(?:\{[^}]*\}\s*|\([^)]*\)\s*)*:(?!:)")
USE = re.compile(r"^\s*(?:pub |ghost )*use ([^{\n;]+?)(?:\.\{([^}]*)\})?(?: as \S+?)?;?$", re.M)
OWN = re.compile(r"Rattle\.(" + "|".join(CRATES) + r")\.")

# Laws that port.py gave the plain spelling because the library has it, and whose definition was still in camel case: in specs/ they get `_is`.
LAWS = ["access_of", "list_all", "merged_value", "moved_up", "one_more", "one_place", "put_word", "in_order"]
# Laws that port.py brought to the very name of a definition, by the files that mean the law.
FELL = {
    "place_of": ["lent_tables/specs/Laws/Word.antt", "lent_effects/specs/Laws/Capture.antt", "effect_function_context/specs/Laws/Function.antt",
                 "call_parts/specs/Laws/Instruction.antt"],
    "set_at": ["call_means/specs/Laws/PlainReach.antt"],
    "word_of": ["image_decode/specs/Laws/WordsBack.antt"],
}


def below(crate, ending):
    for folder, dirs, files in os.walk(os.path.join(TOP, "crates", crate)):
        dirs[:] = sorted(d for d in dirs if d != "out")
        for f in sorted(files):
            if f.endswith(ending):
                yield os.path.join(folder, f)


def snake(name):
    name = name.replace("′", "'")
    name = re.sub(r"([a-z0-9])([A-Z])", lambda m: m[1] + "_" + m[2].lower(), name)
    return name.replace("-", "_").lower()


def odd(name):
    return bool(re.match(r"[a-z]", name)) and bool(re.search(r"[-A-Z′]", name))


def kind(path):
    if "/specs/" in path:
        return "specs"
    return "lemmas" if os.path.basename(os.path.dirname(path)) == "proofs" else "proof"


def uncommented(text):
    return "\n".join(line.split("--")[0] for line in text.split("\n"))


def collect():
    """The names that specs/ and lemma files define or bind, and those that they take from the library."""
    own, library, plain = set(), set(), set()
    for crate in CRATES:
        for path in below(crate, ".antt"):
            with open(path, encoding="utf-8") as f:
                text = uncommented(f.read())
            for m in USE.finditer(text):
                if not OWN.match(m[1]):
                    for part in (m[2] or "").split(","):
                        library.add(part.strip().split(" ")[0])
            if kind(path) == "proof":
                continue
            for line in text.split("\n"):
                if USE.match(line):
                    continue
                m = DEFINED.match(line)
                if m:
                    own.add(m[1])
                for word in WORD.findall(line):
                    (own if odd(word) and word not in library else plain).add(word)
    return own, library, plain


def turning():
    own, library, plain = collect()
    turned = {}
    for name in sorted(own):
        if odd(name) and name not in library:
            turned[name] = snake(name)
    groups = collections.defaultdict(set)
    for name in own | plain:
        groups[snake(name) if odd(name) else name].add(name)
    for spelled, names in sorted(groups.items()):
        names = {n for n in names if re.match(r"[a-z]", n)}
        camel = [n for n in names if re.search("[A-Z]", n)]
        dashed = [n for n in names if "-" in n and not re.search("[A-Z]", n)]
        if len(names) < 2 or not dashed:
            continue
        for n in dashed:
            turned[n] = spelled + "_is"
        if spelled + "_is" in groups:
            print(f"falls together: {spelled}_is with {sorted(groups[spelled + '_is'])}")
        if len(dashed) > 1:
            print(f"fall together: {dashed}")
        if not camel and spelled not in names:
            print(f"no definition: {sorted(names)}")
    return turned


STRING = re.compile(r'"(?:[^"\\\n]|\\.)*"')


def turn_words(text, turned):
    """Outside of strings."""
    parts, last = [], 0
    for m in STRING.finditer(text):
        parts += [WORD.sub(lambda w: turned.get(w[0], w[0]), text[last : m.start()]), m[0]]
        last = m.end()
    return "".join(parts) + WORD.sub(lambda w: turned.get(w[0], w[0]), text[last:])


# ---- contracts: what a lent reference holds

# Of each abbreviation: for each argument that was a whole reference, whether it is seen before the call ('old'), after it ('new'), or both, one after the other
PASSED = {
    "lentCall": "old old - old - old - - old old old".split(),
    "leftBy": "- new new new new new new".split(),
    "leavesFor": ["old"] * 9,
    "writtenFor": ["old"] * 9,
    "mergeOf": "old old old old - old old".split(),
    "mergeFromOf": "old old old old -".split(),
    "WritesInto": ["both", "-", "-"],
    "Cleared": ["both"],
    "before": "old old old old -".split(),
    "after": "new new new new -".split(),
}


def arguments(text, at, count):
    """The next count arguments of an application: (begin, end) of each."""
    spans = []
    while len(spans) < count:
        m = re.compile(r"\s*").match(text, at)
        at = m.end()
        if at >= len(text) or text[at] in "})×≡→,;":
            break
        begin = at
        if text[at] == "(":
            depth = 0
            while True:
                depth += text[at] == "("
                depth -= text[at] == ")"
                at += 1
                if depth == 0:
                    break
            while at < len(text) and text[at] == ".":
                at = re.compile(r"\.\w+").match(text, at).end()
        else:
            at = re.compile(r"[^\s(){}]+").match(text, at).end()
        spans.append((begin, at))
    return spans


def turn_clauses(text, types):
    def held(name, when):
        kind = types.get(name)
        if kind is None:
            return None
        return f"{name}.now" if kind == "&" else f"{name}.{when}"

    # `Does m values sets context output run r` names both worlds
    at = 0
    while True:
        m = re.compile(r"\bDoes\b").search(text, at)
        if not m:
            break
        spans = arguments(text, m.end(), 7)
        words = [text[a:b] for a, b in spans]
        if len(words) == 7:
            olds = " ".join(held(w, "old") for w in words[1:5])
            news = " ".join(held(w, "new") for w in words[1:5])
            text = text[: spans[1][0]].rstrip() + "\n        " + f"(before {olds} {words[5]})\n        (after {news} {words[6]}.run) {words[6]}" + text[spans[6][1] :]
        at = m.end()
    for word, how in PASSED.items():
        at = 0
        while True:
            m = re.compile(rf"(?<![\w'.-]){word}(?![\w'-])").search(text, at)
            if not m:
                break
            spans = arguments(text, m.end(), len(how))
            for (a, b), h in reversed(list(zip(spans, how))):
                name = text[a:b]
                if h == "-" or name not in types:
                    continue
                new = f"{held(name, 'old')} {held(name, 'new')}" if h == "both" else held(name, h)
                text = text[:a] + new + text[b:]
            at = m.end()
    if re.search(r"\bMeansPlain bytes\b", text):
        text = text.replace("MeansPlain bytes", "MeansPlain " + held("bytes", "old"))
    for form in (r"\((old|new) (\w+)\)", r"(?<![\w'.-])(old|new) (\w+)"):
        text = re.sub(form, lambda m: held(m[2], m[1]) or m[0], text)
    return text


def functions(text):
    """(begin of parameters, end, end of clauses) of each function with clauses."""
    for m in re.finditer(r"^ *(?:pub )?(?:extern \"C\" )?fn (\w+)(?:<[^>]*>)?\(", text, re.M):
        at, depth = m.end(), 1
        while depth:
            depth += text[at] == "("
            depth -= text[at] == ")"
            at += 1
        if text[at : text.index("\n", at)].rstrip().endswith("{"):
            continue
        body = re.compile(r"^ *\{$", re.M).search(text, at)
        yield m.end(), at, body.start()


def turn_source(text):
    parts, last = [], 0
    for begin, end, stop in functions(text):
        types = {}
        for m in re.finditer(r"(\w+): (&mut |&)", text[begin:end]):
            types[m[1]] = m[2].strip()
        parts += [text[last:end], turn_clauses(text[end:stop], types)]
        last = stop
    text = "".join(parts) + text[last:]
    # nothing of Lent is left to import
    text = re.sub(r"^ghost use Rattle\.lent_slices\.specs\.Lent\.\{(?:Lent|old|new)(?:, (?:Lent|old|new))*\};\n", "", text, flags=re.M)
    return text


SPECS = {
    "lent_slices/specs/Lent.antt": None,
    "lent_world/specs/Promise.antt": [
        ("use Rattle.lent_slices.specs.Lent.{Lent, old, new}\n", ""),
        ("abbrev pub before : Lent (List ℕ) → Lent (List ℕ) → Lent (List ℕ) → Lent (List ℕ) → Run → World lent\n"
         "before values sets context output run = world (old values) (old sets) (old context) (old output) run\n",
         "abbrev pub before : List ℕ → List ℕ → List ℕ → List ℕ → Run → World lent\n"
         "before values sets context output run = world values sets context output run\n"),
        ("abbrev pub after : Lent (List ℕ) → Lent (List ℕ) → Lent (List ℕ) → Lent (List ℕ) → Run → World lent\n"
         "after values sets context output run = world (new values) (new sets) (new context) (new output) run\n",
         "abbrev pub after : List ℕ → List ℕ → List ℕ → List ℕ → Run → World lent\n"
         "after values sets context output run = world values sets context output run\n"),
        ("abbrev pub Does : M (World lent) Done → Lent (List ℕ) → Lent (List ℕ) → Lent (List ℕ) → Lent (List ℕ) → Run → Ran → Type 0\n"
         "Does m values sets context output run r =\n"
         "    m (before values sets context output run) ≡ answer r.refusal tt (after values sets context output r.run)\n",
         "abbrev pub Does : M (World lent) Done → World lent → World lent → Ran → Type 0\n"
         "Does m w w' r = m w ≡ answer r.refusal tt w'\n"),
    ],
    "lent_copies/specs/Cleared.antt": [
        ("use Rattle.lent_slices.specs.Lent.{Lent, old, new}\n", ""),
        ("abbrev pub Cleared : Lent (List ℕ) → Type 0\nCleared xs = new xs ≡ zeros (length (old xs))\n",
         "abbrev pub Cleared : List ℕ → List ℕ → Type 0\nCleared old new = new ≡ zeros (length old)\n"),
    ],
    "call_means/specs/Promise.antt": [
        ("use Rattle.lent_slices.specs.Lent.{Lent, old, new}\n", ""),
        ("abbrev pub lentCall : Lent (List ℕ) → Lent (List ℕ) → Bool → Lent (List ℕ) → Session → Lent (List ℕ) → Place → ℕ → Lent (List ℕ) → Lent (List ℕ) → Lent (List ℕ) → Call\n"
         "lentCall values sets flag context session candidates lvalue own output scratch64 scratch32 =\n"
         "    call (old values) (old sets) flag (old context) session (old candidates) lvalue own (old output) (old scratch64) (old scratch32)\n",
         "abbrev pub lentCall : List ℕ → List ℕ → Bool → List ℕ → Session → List ℕ → Place → ℕ → List ℕ → List ℕ → List ℕ → Call\n"
         "lentCall values sets flag context session candidates lvalue own output scratch64 scratch32 =\n"
         "    call values sets flag context session candidates lvalue own output scratch64 scratch32\n"),
        ("abbrev pub leftBy : Applied → Lent (List ℕ) → Lent (List ℕ) → Lent (List ℕ) → Lent (List ℕ) → Lent (List ℕ) → Lent (List ℕ) → Outcome\n"
         "leftBy r values sets context output scratch64 scratch32 =\n"
         "    given r (new values) (new sets) (new context) (new output) (new scratch64) (new scratch32)\n",
         "abbrev pub leftBy : Applied → List ℕ → List ℕ → List ℕ → List ℕ → List ℕ → List ℕ → Outcome\n"
         "leftBy r values sets context output scratch64 scratch32 =\n"
         "    given r values sets context output scratch64 scratch32\n"),
    ],
    "image_outcome/specs/Promise.antt": [
        ("use Rattle.lent_slices.specs.Lent.{Lent, old, new}\n", ""),
        ("leftBy : Shown → Lent (List ℕ) → Lent (List ℕ) → Lent (List ℕ) → Left\n", "leftBy : Shown → List ℕ → List ℕ → List ℕ → Left\n"),
        ("left r (new values) (new sets) (new output)", "left r values sets output"),
        (" : " + "Lent (List ℕ) → " * 9 + "Left\n", " : " + "List ℕ → " * 9 + "Left\n"),
        (" : " + "Lent (List ℕ) → " * 9 + "List ℕ\n", " : " + "List ℕ → " * 9 + "List ℕ\n"),
        ("leaves (old bytes) (length (old words)) (length (old values)) (length (old sets)) (length (old context)) (length (old candidates))\n"
         "    (length (old output)) (length (old scratch64)) (length (old scratch32))",
         "leaves bytes (length words) (length values) (length sets) (length context) (length candidates)\n"
         "    (length output) (length scratch64) (length scratch32)"),
        ("written (old bytes) (length (old words)) (length (old values)) (length (old sets)) (length (old context)) (length (old candidates))\n"
         "    (length (old output)) (length (old scratch64)) (length (old scratch32))",
         "written bytes (length words) (length values) (length sets) (length context) (length candidates)\n"
         "    (length output) (length scratch64) (length scratch32)"),
        ("MeansPlain : Lent (List ℕ) → Type 0\nMeansPlain bytes = ((k : ℕ) → get_or (old bytes) k 0 < 256) → inferred (old bytes) ≡ infer (old bytes)",
         "MeansPlain : List ℕ → Type 0\nMeansPlain bytes = ((k : ℕ) → get_or bytes k 0 < 256) → inferred bytes ≡ infer bytes"),
    ],
    "state_pairs/specs/Promise.antt": [
        ("use Rattle.lent_slices.specs.Lent.{Lent, old}\n", ""),
        ("Lent (List ℕ)", "List ℕ"),
        ("MergeCalls.merge (old values1) (old sets1) (old values2) (old sets2) session (old values3) (old sets3)",
         "MergeCalls.merge values1 sets1 values2 sets2 session values3 sets3"),
        ("MergeCalls.mergeFrom (old values1) (old sets1) (old values2) (old sets2) session", "MergeCalls.mergeFrom values1 sets1 values2 sets2 session"),
    ],
    "image_pieces/specs/Pieces.antt": [
        ("abbrev pub WritesInto : Lent (List ℕ) → ℕ → List ℕ → Type 0\nWritesInto buffer r text = Writes text (cursor 0 (old buffer)) (cursor r (new buffer))\n",
         "abbrev pub WritesInto : List ℕ → List ℕ → ℕ → List ℕ → Type 0\nWritesInto old new r text = Writes text (cursor 0 old) (cursor r new)\n"),
    ],
}


def turn_specs(relative, text):
    for old, new in SPECS.get(relative) or []:
        if old not in text:
            print(f"not found in {relative}: {old[:80]!r}")
        text = text.replace(old, new)
    text = re.sub(r"^use Rattle\.lent_slices\.specs\.Lent\.\{(?:Lent|old|new)(?:, (?:Lent|old|new))*\}\n", "", text, flags=re.M)
    return text


def turn_laws(relative, text):
    laws = [n for n in LAWS]
    if "/specs/" not in relative:
        laws = [n for n in laws if any(n in [p.strip() for p in (m[2] or "").split(",")] and ".specs." in m[1] for m in USE.finditer(text))]
    laws += [n for n, files in FELL.items() if relative in files]
    for n in laws:
        text = re.sub(rf"(?<![\w'.-]){n}(?![\w'-])", n + "_is", text)
        if "/specs/" in relative and n in LAWS:
            text = re.sub(rf"(?<=\.){n}(?![\w'-])", n + "_is", text)
    return text


def fell_together(path, text):
    """Names that a file brings in twice, or brings in and defines."""
    seen = collections.Counter()
    for m in USE.finditer(text):
        for part in (m[2] or "").split(","):
            if part.strip():
                seen[part.strip().split(" as ")[-1].strip()] += 1
    for line in text.split("\n"):
        m = re.match(r"(?:(?:pub|abbrev|unfoldable)\s+)*([^\s(){}\[\],.;:λ→]+)\s*(?:\{[^}]*\}\s*|\([^)]*\)\s*)*:(?!:)", line)
        if m:
            seen[m[1]] += 1
    twice = sorted(n for n, k in seen.items() if k > 1)
    if twice:
        print(f"twice in {path}: {twice}")


def main():
    turned = turning()
    gone = os.path.join(TOP, "crates", "lent_slices", "specs", "Lent.antt")
    for crate in CRATES:
        for path in list(below(crate, (".antt", ".rt", ".edit"))):
            relative = path[len(os.path.join(TOP, "crates")) + 1 :]
            if path == gone:
                continue
            with open(path, encoding="utf-8") as f:
                old = text = f.read()
            if path.endswith(".antt"):
                text = turn_specs(relative, text)
                text = turn_laws(relative, text)
            elif path.endswith(".rt"):
                text = turn_source(text)
            text = turn_words(text, turned)
            if path.endswith(".antt"):
                fell_together(relative, text)
            if text != old:
                with open(path, "w", encoding="utf-8") as f:
                    f.write(text)
    if os.path.exists(gone):
        os.remove(gone)
        lib = os.path.join(TOP, "crates", "lent_slices", "specs", "Lib.antt")
        with open(lib, encoding="utf-8") as f:
            text = f.read()
        with open(lib, "w", encoding="utf-8") as f:
            f.write(text.replace("pub mod Lent\n", ""))


if __name__ == "__main__":
    main()
