#!/usr/bin/env python3
"""What is promised: every public function with its statement, and every definition.

    python3 tools/statements.py                 list the public functions of the work tree, abbreviations of contracts unfolded
    python3 tools/statements.py --against REV   compare with the tree of a commit: statements and definitions, up to abbreviations of
                                                contracts, names of clauses, parentheses and layout

An abbreviation of contracts is an `abbrev` of a file `Promise.antt`, or of `Cleared.antt` (lent_copies).
Exit status 1 if anything else differs. REV is a commit in today's spelling, that is one since the port (docs/PORT.md, its second line);
between older ones the tool of the commit of then compares, and across the port docs/PORT.md has what differs.
"""

import argparse
import os
import re
import subprocess
import sys

ROOT = os.path.abspath(os.path.join(os.path.dirname(os.path.abspath(__file__)), ".."))
SHORT = ("Promise.antt", "lent_copies/specs/Cleared.antt")
INFIX = {"≡", "×", "→", "||", "&&", "≤", "<", "+", "*", "-", "/", "%", "^", "∷", "++", ":", "∙", ">>=", ">>"}


# ---- the two trees

# The files of crates/ that have statements or definitions, in the work tree or in a commit.
def tree(rev):
    if rev is None:
        out = {}
        for base, _, names in os.walk(os.path.join(ROOT, "crates")):
            for name in names:
                path = os.path.relpath(os.path.join(base, name), ROOT)
                if re.match(r"crates/\w+/(src/.*\.rt|specs/.*\.antt)$", path):
                    out[path] = open(os.path.join(ROOT, path), encoding="utf-8").read()
        return out
    listed = subprocess.run(["git", "ls-tree", "-r", "--name-only", rev, "crates"], cwd=ROOT, capture_output=True, text=True, check=True).stdout.split()
    wanted = [p for p in listed if re.match(r"crates/\w+/(src/.*\.rt|specs/.*\.antt)$", p)]
    asked = "".join("%s:%s\n" % (rev, p) for p in wanted).encode()
    data = subprocess.run(["git", "cat-file", "--batch"], cwd=ROOT, input=asked, capture_output=True, check=True).stdout
    out, at = {}, 0
    for path in wanted:
        end = data.index(b"\n", at)
        size = int(data[at:end].split()[2])
        out[path] = data[end + 1 : end + 1 + size].decode("utf-8")
        at = end + 1 + size + 1
    return out


# ---- terms: nested lists of words, one form for terms that differ in parentheses alone

# The words of a text; a projection stays with what it is of: `r.f` is one word, and of `(g x).f` the `.f`.
def words(text):
    text = re.sub(r"(?m)(--|//).*$", "", text)
    return re.findall(r"[(){};,]|[^\s(){};,]+", text)


# A nested list from words.
def nested(tokens):
    stack = [[]]
    for token in tokens:
        if token in "({":
            stack.append([token])
        elif token in ")}":
            group = stack.pop()
            stack[-1].append(group)
        else:
            stack[-1].append(token)
    return stack[0]


# Groups that change nothing go: around one word, and around the head of an application.
def plain(term, top=True):
    items = [plain(t, False) if isinstance(t, list) else t for t in term]
    opened = items[0] if not top and items and items[0] in ("(", "{") else None
    body = items[1:] if opened else items
    out, head = [], True
    for item, follows in zip(body, body[1:] + [""]):
        projected = isinstance(follows, str) and re.match(r"\.\w", follows)
        if isinstance(item, list) and item[0] == "(" and not projected:
            inner = item[1:]
            single = len(inner) == 1
            applied = not any(isinstance(w, str) and (w in INFIX or w.startswith("λ") or w in (";", ",")) for w in inner)
            if single or (head and applied):
                out += inner
                head = False
                continue
        out.append(item)
        head = isinstance(item, str) and (item in INFIX or item in (";", ",") or item.endswith("."))
    if len(out) == 1 and isinstance(out[0], list) and out[0][0] == "(":
        out = out[0][1:]
    # what follows the last arrow needs none either
    if len(out) > 1 and out[-2] == "→" and isinstance(out[-1], list) and out[-1][0] == "(":
        out = out[:-1] + out[-1][1:]
    return ([opened] if opened else []) + out


# A term as a text.
def show(term):
    close = {"(": ")", "{": "}"}
    out = []
    for item in term:
        if isinstance(item, list):
            out.append(item[0] + show(item[1:]) + close[item[0]])
        else:
            out.append(item)
    return " ".join(out)


# ---- abbreviations of contracts

# What a file brings in of modules of definitions: name -> (crate, module).
def brought_in(text):
    found = {}
    for crate, module, names in re.findall(r"(?m)^(?:ghost |pub )*use Rattle\.(\w+)\.specs\.(\w+)\.\{([^}]*)\}", text):
        for name in names.split(","):
            found[name.strip().split(" as ")[-1]] = (crate, module)
    return found


# (crate, module, name) -> (parameters, body as words, the names in scope there)
def abbreviations(files):
    found = {}
    for path, text in files.items():
        if not path.endswith(SHORT):
            continue
        m = re.match(r"crates/(\w+)/specs/(\w+)\.antt", path)
        scope = brought_in(text)
        text = re.sub(r"(?m)^[ \t]*--.*\n", "", text)
        for block in re.split(r"\n\s*\n", text):
            one = re.match(r"abbrev pub (\S+) : .*\n\1((?: \S+)*?) =\s*((?:.|\n)*)$", block)
            if one:
                scope[one.group(1)] = m.groups()
                found[m.groups() + (one.group(1),)] = (one.group(2).split(), words(one.group(3)), scope)
    return found


# A word with what stands for it, or for what it is a field of.
def filled(word, put):
    head, dot, field = word.partition(".")
    if word in put or head not in put or not field:
        return [put.get(word, word)]
    given = put[head]
    return [given + dot + field] if isinstance(given, str) else [given, dot + field]


# What a name abbreviates, by the scope it stands in; a name that the scope lacks is the one abbreviation of that name, if there is one.
def abbreviated(item, short, scope):
    if item in scope:
        return short.get(scope[item] + (item,))
    found = [key for key in short if key[2] == item]
    return short[found[0]] if len(found) == 1 else None


# A term with every abbreviation unfolded.
def unfold(term, short, scope):
    out, at = [], 0
    while at < len(term):
        item = term[at]
        known = isinstance(item, str) and abbreviated(item, short, scope)
        if known:
            names, body, inside = known
            # an argument is a word or a group, a group with the projection behind it
            given, next = [], at + 1
            while len(given) < len(names) and next < len(term):
                one = term[next]
                one = [one[0]] + unfold(one[1:], short, scope) if isinstance(one, list) else one
                next += 1
                if next < len(term) and isinstance(term[next], str) and re.match(r"\.\w", term[next]):
                    one = ["(", one, term[next]]
                    next += 1
                given.append(one)
            if len(given) == len(names):
                put = dict(zip(names, given))

                def fill(t):
                    return [y for x in t for y in ([fill(x)] if isinstance(x, list) else filled(x, put))]

                out.append(["("] + fill(unfold(nested(body), short, inside)))
                at = next
                continue
        out.append([item[0]] + unfold(item[1:], short, scope) if isinstance(item, list) else item)
        at += 1
    return out


# Parentheses to one form, as often as it changes something.
def settled(term):
    while True:
        again = plain(term)
        if again == term:
            return term
        term = again


# ---- statements

# Where the bracket that opens at a place closes; the `>` of an arrow `->` closes none.
def closing(text, at):
    depth, open_, close = 0, text[at], {"(": ")", "{": "}", "<": ">"}[text[at]]
    while True:
        depth += (text[at] == open_) - (text[at] == close and text[at - 1 : at + 1] != "->")
        at += 1
        if depth == 0:
            return at


# crate, function -> statement: its types, then its clauses
def statements(files, short, numbers):
    found = {}
    for path, text in files.items():
        m = re.match(r"crates/(\w+)/src/", path)
        if not m:
            continue
        crate, scope = m.group(1), brought_in(text)
        text = re.sub(r"(?m)^\s*//.*\n", "", text)
        for m in re.finditer(r"(?m)^impl(?:<[^>]*>)? (?:\w+ for )?(\w+)|^\}| *pub (?:extern \"C\" )?fn (\w+)", text):
            if not m.group(2):
                owner = m.group(1) + "::" if m.group(1) else ""
                continue
            if m.start() == text.find("fn") or not re.match(r" ", m.group(0)):
                owner = ""
            at = m.end()
            if text[at] == "<":
                at = closing(text, at)
            at = closing(text, at)
            end = re.compile(r"\b(?:requires|ensures)\b|\{").search(text, at).start()
            types = re.sub(r"\s+", " ", text[m.start() : end]).strip()
            types = re.sub(r",? \)", ")", types).replace("( ", "(")
            said = []
            clause = re.compile(r"\s*(requires|ensures)(\*?)(?: (\w+))? (?=\{)")
            while True:
                c = clause.match(text, end)
                if not c:
                    break
                end = closing(text, c.end())
                fact = show(settled(unfold(nested(words(text[c.end() + 1 : end - 1])), short, scope)))
                said.append("%s%s. %s" % (c.group(1), c.group(2), numbered(names_of(fact), numbers)))
            found[crate, owner + m.group(2)] = re.sub(r"fn \w+", "fn", types) + "\n    " + "\n    ".join(said)
    return found


# The numbers of the layout by name, and the fields of its tables: a text is the same whether it says the one or the other.
def sizes(files):
    found = {}
    for path, text in files.items():
        if path == "crates/lent_layout/specs/Layout.antt":
            for name, number in re.findall(r"(?m)^(\w+) = (\d+)$", text):
                found["Layout." + name] = found[name] = number
            for name, fields in re.findall(r"(?m)^(\w+) = record \{ (.*) \}$", text):
                for field, number in re.findall(r"(\w+) = (\d+)", fields):
                    found["Layout.%s.%s" % (name, field)] = found["%s.%s" % (name, field)] = number
    return found


def numbered(text, numbers):
    for name in sorted(numbers, key=len, reverse=True):
        if name.startswith("Layout.") or name in ("output_words", "one_run.width"):
            text = re.sub(r"(?<![\w.])%s(?![\w'-])" % re.escape(name), numbers[name], text)
    return re.sub(r"\((\d+)\)", r"\1", text)


# A text without the crate of a module.
def names_of(text):
    return re.sub(r"Rattle\.\w+\.specs\.", "", text)


# ---- definitions

# text -> how often: every unfoldable, abbrev, record and data, without comments
def texts(files, numbers):
    found = {}
    for path, text in files.items():
        if not re.match(r"crates/\w+/specs/", path) or path.endswith(SHORT):
            continue
        text = re.sub(r"(?m)^[ \t]*--.*\n", "", text)
        text = re.sub(r"(?m)^[ \t]*(pub )?use .*\n", "", text)
        for block in re.split(r"\n\s*\n", text):
            block = re.sub(r"^\s*module _.*where\n", "", block)
            block = re.sub(r"^\s*(infix|syntax).*\n", "", block)
            m = re.match(r"\s*(unfoldable|abbrev)(?: pub)? (\S+)|\s*(?:pub )?(record|data) (\S+)", block)
            # what `computing` unfolds is a list of names for laws, not a definition
            if not m or m.group(2) == "computing":
                continue
            term = numbered(names_of(show(nested(words(block)))), numbers)
            found[term] = found.get(term, 0) + 1
    return found


def main():
    parser = argparse.ArgumentParser(description="what is promised")
    parser.add_argument("--against")
    options = parser.parse_args()
    now = tree(None)
    numbers = sizes(now)
    here = statements(now, abbreviations(now), numbers)
    if not options.against:
        for (crate, name), said in sorted(here.items()):
            print("%s::%s\n    %s" % (crate, name, said))
        print("%d public functions" % len(here))
        return 0
    past = tree(options.against)
    if any("use Rattle·" in text for text in past.values()):
        print("statements: %s is in the older spelling, before the port: docs/PORT.md has what differs" % options.against, file=sys.stderr)
        return 2
    there = statements(past, abbreviations(past), sizes(past))
    wrong = 0
    for key in sorted(set(here) | set(there)):
        if key not in there:
            print("new: %s::%s" % key)
        elif key not in here:
            wrong += 1
            print("gone: %s::%s" % key)
        elif here[key] != there[key]:
            wrong += 1
            print("differs: %s::%s\n  before: %s\n  now:    %s" % (key + (there[key], here[key])))
    print("statements: %d before, %d now, %d differ" % (len(there), len(here), wrong))
    before, after = texts(past, sizes(past)), texts(now, numbers)
    lost = {t: n for t, n in before.items() if t not in after}
    for term in sorted(lost):
        print("definition of before that is not here: " + term[:300])
    more = {t: n for t, n in after.items() if t not in before}
    for term in sorted(more):
        print("definition that was not there: " + term[:300])
    repeated = sum(n - 1 for n in before.values()), sum(n - 1 for n in after.values())
    print("definitions: %d before, %d now, %d lost, %d new; texts that stand more than once: %d before, %d now" % (sum(before.values()), sum(after.values()), len(lost), len(more), repeated[0], repeated[1]))
    return 1 if wrong or lost else 0


if __name__ == "__main__":
    sys.exit(main())
