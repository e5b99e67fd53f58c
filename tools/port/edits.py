#!/usr/bin/env python3
"""Brings the must-fail edits of docs/PORT.md's commit LANDED over to the text of src/ and specs/ as it is now.

usage: python3 tools/port/edits.py LANDED_TREE [--write] [CRATE/NAME..]
       python3 tools/port/edits.py --fit

LANDED_TREE is a folder with the files of LANDED (`git archive LANDED | tar -x -C FOLDER`); the current folder is the repository.

For each pair `old:`, `new:` of an edit: the tokens of the file at LANDED and of the file as it is now are aligned; the tokens that the edit
changes, and those about them in the same line, are found in the file as it is now; what the edit puts there is turned by the names that the
alignment of all files gave (TURNED below adds what it can't see). Prints each pair that it could not bring over ('by hand: ..') and each whose new
form differs from the edit that stands now. Without --write nothing is written. HAND names the edits that were written by hand: they are left alone.

--fit: whether each `old:` stands exactly once in its file, and changes it; proves nothing.
"""

import collections
import difflib
import glob
import os
import re
import sys

TOKEN = re.compile(r"[^\W\d][\w'′]*(?:-[\w'′]+)*|\d+|>>=|[=!<>]=|<<|>>|\+\+|\S")
HAND = set("""
call_means/reasons_dropped
def_key_order/captures_not_compared
def_transfer/union_of_reasons_on_freezing
def_transfer/visited_mark_in_the_walk
effect_plain/an_immutable_capture_from_its_destination
image_outcome/rows_left_out
laws_room/captures_take_nothing
laws_room/records_one_word_short
laws_state_stays/access_one_too_high
lent_context/read_made_in_function_0
lent_world/every_effect_to_record_0
lent_world/one_word_before_said_zero
refuse_key_order/neighbours_of_one_key
state_calls/reasons_dropped
""".split())
# Words that stand in edits only, or that the alignment gets wrong.
TURNED = {"if_then_else_": "when◌then◌else◌", "getD": "get_or"}
# Words of the library that an edit names by their path.
PATHS = {
    "mathlib.Core.Option.none": "Rattle.std.proofs.Math.Option.none",
    "mathlib.Core.Option.some": "Rattle.std.proofs.Math.Option.some",
    "mathlib.Core.Bool.true": "Rattle.std.specs.Prelude.true",
    "mathlib.Core.Bool.not": "Rattle.std.specs.Prelude.not",
    "mathlib.Core.List.[]": "Rattle.std.specs.Prelude.[]",
    "Prim.Native.Nat.suc": "Rattle.std.specs.Prelude.suc",
    "lib.ListN.getD": "Rattle.std.specs.Prelude.get_or",
}


def read(path):
    with open(path, encoding="utf-8") as f:
        return f.read()


def plain(word):
    """A token as it is compared: names without their spelling."""
    if re.match(r"[^\W\d]", word):
        return re.sub(r"[^a-z0-9]", "", word.lower().replace("λ", "\\")) or word
    return word


def tokens(text):
    return [(m[0], m.start(), m.end()) for m in TOKEN.finditer(text)]


def pairs(text):
    """(index of the line, file, old, new) of each pair, and all lines."""
    path = old = None
    at = None
    found = []
    lines = text.split("\n")
    for i, line in enumerate(lines):
        if line.startswith("file: "):
            path = line[6:]
        elif line.startswith("old: "):
            old, at = line[5:], i
        elif line.startswith("new:"):
            found.append((at, i, path, old, line[4:].removeprefix(" ")))
            old = None
    return found, lines


class Aligned:
    """The tokens of a file at LANDED and now."""

    def __init__(self, before, now):
        self.before, self.now = before, now
        self.a, self.b = tokens(before), tokens(now)
        # by lines first, as whole texts are long, then by tokens in the blocks between
        self.map = {}
        self.names = collections.Counter()
        self.align(0, len(self.a), 0, len(self.b))

    def align(self, a0, a1, b0, b1):
        s = difflib.SequenceMatcher(None, [plain(t[0]) for t in self.a[a0:a1]], [plain(t[0]) for t in self.b[b0:b1]], autojunk=False)
        for tag, i0, i1, j0, j1 in s.get_opcodes():
            if tag == "equal":
                for k in range(i1 - i0):
                    self.map[a0 + i0 + k] = b0 + j0 + k
            elif tag == "replace" and i1 - i0 == j1 - j0:
                for k in range(i1 - i0):
                    self.map.setdefault(a0 + i0 + k, b0 + j0 + k)
        for i, j in self.map.items():
            x, y = self.a[i][0], self.b[j][0]
            if re.match(r"[^\W\d]", x) and plain(x) == plain(y):
                self.names[x, y] += 1


def line_of(text, at):
    begin = text.rfind("\n", 0, at) + 1
    end = text.find("\n", at)
    return begin, end if end >= 0 else len(text)


def turn(text, names):
    for old, new in PATHS.items():
        text = re.sub(rf"(?<![\w.]){re.escape(old)}(?![\w])", new, text)
    text = re.sub(r"Rattle·(\w+)·specs\.specs\.", r"Rattle.\1.specs.", text)
    text = re.sub(r"Rattle·(\w+)\.specs\.", r"Rattle.\1.specs.", text)
    text = re.sub(r"[^\W\d][\w'′]*(?:-[\w'′]+)*", lambda m: TURNED.get(m[0]) or names.get(m[0], m[0]), text)
    text = re.sub(r"(?<=[\w)]) \.(?=[a-z])", ".", text)
    text = re.sub(r"\((\w+(?:\.\w+)+)\)(?=[ )]|$)", r"\1", text)
    return text


class Problem(Exception):
    pass


def bring(al, before, done, old, new, names, current):
    """The pair of today: before is LANDED's text with the earlier pairs applied, current today's with the earlier ones applied.
    done: the earlier pairs of the same file, as spans of tokens of LANDED's file; here a pair whose text overlaps an earlier one is by hand."""
    if before.count(old) != 1:
        raise Problem(f"the old text stands {before.count(old)} times at LANDED")
    at = before.index(old)
    if al.before.count(old) != 1:
        raise Problem("its text was made by an earlier pair")
    at = al.before.index(old)
    inside = [k for k, t in enumerate(al.a) if t[1] >= at and t[2] <= at + len(old)]
    # tokens cut by the edit's border make it uncertain
    cut = [t for t in al.a if t[1] < at < t[2] or t[1] < at + len(old) < t[2]]
    if cut:
        raise Problem(f"its border cuts {cut[0][0]!r}")
    x, y = tokens(old), tokens(new)
    s = difflib.SequenceMatcher(None, [t[0] for t in x], [t[0] for t in y], autojunk=False)
    changes = [c for c in s.get_opcodes() if c[0] != "equal"]
    if not changes:
        raise Problem("only spaces change")
    edits = []
    for tag, i0, i1, j0, j1 in changes:
        # what changes lies between the tokens before and behind it: with their spaces, as the edit has them
        js = [al.map.get(inside[k]) for k in range(i0, i1)]
        if None in js:
            raise Problem(f"not found now: {' '.join(t[0] for t in x[i0:i1])!r}")
        if js and js != list(range(js[0], js[0] + len(js))):
            raise Problem(f"not together now: {' '.join(t[0] for t in x[i0:i1])!r}")
        for k in range(i0, i1):
            if plain(x[k][0]) != plain(al.b[al.map[inside[k]]][0]):
                raise Problem(f"{x[k][0]!r} is {al.b[al.map[inside[k]]][0]!r} now")
        left = al.map.get(inside[i0 - 1]) if i0 > 0 else None
        right = al.map.get(inside[i1]) if i1 < len(x) else None
        if left is None and right is None and not js:
            raise Problem("nothing beside an inserted text is found")
        if js:
            first, last = al.b[js[0]][1], al.b[js[-1]][2]
        elif left is not None:
            first = last = al.b[left][2]
        else:
            first = last = al.b[right][1]
        text = turn(new[y[j0][1] : y[j1 - 1][2]], names) if j1 > j0 else ""
        # a gap is the edit's where the neighbour is the same now, and else stays
        if left is not None and (js[:1] == [left + 1] or not js):
            gap = new[y[j0 - 1][2] : y[j0][1]] if j1 > j0 else ""
            gap = "" if text.startswith(".") and not text.startswith("..") else gap
            if j1 > j0 or right is None:
                text, first = gap + text, al.b[left][2]
        if right is not None and (js[-1:] == [right - 1] or (not js and left is None) or (not js and left == right - 1)):
            gap = new[(y[j1 - 1][2] if j1 > 0 else 0) : y[j1][1]]
            gap = "" if al.b[right][0] == "." else gap
            if j1 > j0 or js:
                text, last = text + gap, al.b[right][1]
                if not j1 > j0 and left is not None:
                    first = al.b[left][2] if left == js[0] - 1 else first
        edits.append((first, last, text))
    spans = {line_of(al.now, e[0]) for e in edits}
    if len(spans) != 1:
        raise Problem("the changes stand in several lines now")
    (begin, end), = spans
    # the part of the line that the edit names
    js = [al.map[k] for k in inside if k in al.map and begin <= al.b[al.map[k]][1] < end]
    whole = old[: len(old) - len(old.lstrip())] != "" or at == 0 or al.before[at - 1] == "\n"
    left = begin if whole else min(al.b[j][1] for j in js)
    right = max([al.b[j][2] for j in js] + [e[1] for e in edits])
    left = min([left] + [e[0] for e in edits])
    before_now = al.now[left:right]
    text = before_now
    for b, e, t in sorted(edits, reverse=True):
        text = text[: b - left] + t + text[e - left :]
    return before_now, text, (left, right)


def place_now(crate, path):
    """Where a file of LANDED stands now: laws went from specs/Laws to proofs/Laws (move_laws.py)."""
    moved = path.replace("specs/Laws/", "proofs/Laws/")
    return moved if not os.path.exists(f"crates/{crate}/{path}") and os.path.exists(f"crates/{crate}/{moved}") else path


def landed_edit(tree, crate, name):
    return read(os.path.join(tree, "crates", crate, "must-fail", name + ".edit"))


def port(tree, crate, name, alignments, names):
    text = landed_edit(tree, crate, name)
    found, lines = pairs(text)
    before, current, done = {}, {}, {}
    for at_old, at_new, path, old, new in found:
        key = (crate, path)
        if key not in alignments:
            now = os.path.join("crates", crate, place_now(crate, path))
            if not os.path.exists(now):
                raise Problem(f"no file {path}")
            alignments[key] = Aligned(read(os.path.join(tree, "crates", crate, path)), read(now))
        al = alignments[key]
        before.setdefault(path, al.before)
        current.setdefault(path, al.now)
        o, n, span = bring(al, before[path], done.setdefault(path, []), old, new, names, current[path])
        before[path] = before[path].replace(old, new)
        # widen until it stands once
        count = current[path].count(o)
        if count != 1:
            b, e = line_of(al.now, span[0])
            o2, n2 = al.now[b:e], al.now[b : span[0]] + n + al.now[span[1] : e]
            if current[path].count(o2) != 1:
                raise Problem(f"its text stands {count} times now, its line {current[path].count(o2)} times: {o!r}")
            o, n = o2, n2
        current[path] = current[path].replace(o, n)
        lines[at_old], lines[at_new] = "old: " + o, "new: " + n
    for i, line in enumerate(lines):
        if line.startswith("file: "):
            lines[i] = "file: " + place_now(crate, line[6:])
        elif not line.startswith(("file: ", "old: ", "new:")):
            lines[i] = turn(line, names) if line else line
    return "\n".join(lines)


def every(top):
    return sorted((e.split("/")[-3], os.path.basename(e)[:-5]) for e in glob.glob(os.path.join(top, "crates/*/must-fail/*.edit")))


def fit():
    bad = good = 0
    for crate, name in every("."):
        texts, slip = {}, None
        found, _ = pairs(read(f"crates/{crate}/must-fail/{name}.edit"))
        if not found:
            slip = "it has no pair"
        for _, _, path, old, new in found:
            p = f"crates/{crate}/{path}"
            if p not in texts:
                if not os.path.exists(p):
                    slip = f"no file {path}"
                    break
                texts[p] = read(p)
            n = texts[p].count(old) if old else 0
            if n != 1 or old == new:
                slip = f"stands {n} times in {path}: {old!r}" if n != 1 else f"changes nothing: {old!r}"
                break
            texts[p] = texts[p].replace(old, new)
        if not slip and all(texts[p] == read(p) for p in texts):
            slip = "its pairs together change nothing"
        if slip:
            print(f"{crate}/{name}: {slip}")
        bad, good = bad + bool(slip), good + (not slip)
    print(f"{good} edits fit, {bad} do not")
    return 1 if bad else 0


def main(argv):
    if argv == ["--fit"]:
        return fit()
    write = "--write" in argv
    argv = [a for a in argv if a != "--write"]
    tree, only = argv[0], set(argv[1:])
    alignments = {}
    votes = collections.defaultdict(collections.Counter)
    for crate, name in every(tree):
        for _, _, path, _, _ in pairs(landed_edit(tree, crate, name))[0]:
            now = os.path.join("crates", crate, place_now(crate, path))
            if (crate, path) not in alignments and os.path.exists(now):
                al = alignments[crate, path] = Aligned(read(os.path.join(tree, "crates", crate, path)), read(now))
                for (x, y), n in al.names.items():
                    votes[x][y] += n
    names = {x: c.most_common(1)[0][0] for x, c in votes.items()}
    counts = collections.Counter()
    for crate, name in every(tree):
        label = f"{crate}/{name}"
        if only and label not in only:
            continue
        if label in HAND:
            counts["by hand"] += 1
            continue
        path = f"crates/{crate}/must-fail/{name}.edit"
        try:
            text = port(tree, crate, name, alignments, names)
        except Problem as p:
            print(f"by hand: {label}: {p}")
            counts["left"] += 1
            continue
        counts["by script"] += 1
        if text != read(path):
            print(f"differs: {label}\n" + "\n".join("    " + l for l in difflib.unified_diff(read(path).split("\n"), text.split("\n"), lineterm="", n=0) if not l.startswith(("---", "+++", "@@"))))
            if write:
                with open(path, "w", encoding="utf-8") as f:
                    f.write(text)
    print(dict(counts))
    return 0


if __name__ == "__main__":
    raise SystemExit(main(sys.argv[1:]))
