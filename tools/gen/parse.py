"""Reads inputs and answers back by the formats' own structure (docs/VECTORS.md).

Used to choose what is recorded and to check the recorded lists. Every reader takes
all words: too few or too many are a ValueError.
"""

from names import *

EFFECT_FIELDS = ["code", "first", "second", "kind", "reason", "mutation", "function",
                 "identity", "instance", "captures"]


class Reader:
    """Takes words from the front of a list."""

    # Starts at the first word.
    # The list is not copied.
    def __init__(self, words):
        self.words, self.at = words, 0

    # The next `count` words as a list.
    # Passing the end is an error.
    def take(self, count):
        if self.at + count > len(self.words):
            raise ValueError("words end too soon")
        self.at += count
        return self.words[self.at - count:self.at]

    # The next word.
    # Counts and single fields.
    def one(self):
        return self.take(1)[0]

    # `count` records of `size` words.
    # Every section of fixed records.
    def records(self, count, size):
        return [self.take(size) for _ in range(count)]

    # Says that all words were taken.
    # Trailing words are an error.
    def end(self):
        if self.at != len(self.words):
            raise ValueError("words are left over")


# An image's words as header and sections; only the structure is looked at.
# Damaged images are not read with this.
def image(words):
    r = Reader(words)
    head = r.take(HEADER)
    sections = []
    for k, size in enumerate([4, 3, 2, 5, 5, 8]):
        if head[6 + 2 * k] != r.at:
            raise ValueError("offset of section %d" % k)
        sections.append(r.records(head[5 + 2 * k], size))
    r.end()
    return head, sections


# A library job's words as a dictionary.
# Field names follow docs/VECTORS.md.
def job(words):
    r = Reader(words)
    head = r.take(18)
    if head[0] != 1:
        raise ValueError("no library job")
    sizes = [4, 3, 2, 5, 5, 8, 8, 9, 2]
    names = ["identifiers", "values", "pairs", "places", "functions", "diagnostics",
             "interned", "cached", "links"]
    out = {n: r.records(c, s) for n, c, s in zip(names, head[8:17], sizes)}
    out["instructions"] = []
    for _ in range(head[17]):
        lvalue, own, count = r.take(3)
        out["instructions"].append((lvalue, own, r.records(count, 8)))
    r.end()
    out["head"] = head
    return out


# One effect of an answer.
# Captures come last, with their count in front.
def effect(r):
    code = r.one()
    first, second = r.take(5), r.take(5)
    rest = r.take(6)
    return dict(zip(EFFECT_FIELDS, [code, first, second] + rest + [r.records(r.one(), 5)]))


# State part of an answer: values, then defined identifiers with their sets.
# Jobs and operations end with the same form.
def state(r):
    values = r.records(r.one(), 3)
    sets = []
    for _ in range(r.one()):
        identifier = r.one()
        sets.append((identifier, r.take(r.one())))
    if any(a[0] >= b[0] for part in (values, sets) for a, b in zip(part, part[1:])):
        raise ValueError("state is not ascending")
    return values, sets


# The answer to a job with `count` instructions, as a dictionary.
# After a refusal an instruction has no effects and no entries.
def job_answer(words, count):
    r = Reader(words)
    out = {"results": []}
    for _ in range(count):
        result, effects, entries = r.take(3)
        if result and (effects or entries):
            raise ValueError("effects after a refusal")
        out["results"].append((result, entries, [effect(r) for _ in range(effects)]))
    out["flag"], out["next"], out["access"], out["walked"] = r.one(), r.one(), r.take(3), r.one()
    out["values"], out["sets"] = state(r)
    out["functions"] = [r.take(r.one()) for _ in range(r.one())]
    out["links"] = r.records(r.one(), 2)
    out["cached"] = []
    for _ in range(r.one()):
        fixed = r.take(7)
        out["cached"].append((fixed, r.take(r.one())))
    out["interned"] = [effect(r) for _ in range(r.one())]
    out["diagnostics"] = r.records(r.one(), 9)
    r.end()
    return out


# A state operation's words as a dictionary.
# The numbers of arguments that each operation takes are checked too.
def operation(words):
    r = Reader(words)
    head = r.take(13)
    args_of = {OP_KIND: 1, OP_KIND_SPAN: 3, OP_INITIALIZE: 3, OP_DEFINE: 2, OP_ASSIGN: 2,
               OP_APPEND: 2, OP_IS_DEFINED: 1, OP_VALUES_FOR: 1, OP_FREEZE: 2, OP_MUTATE: 4,
               OP_MERGE: 0, OP_MERGE_FROM: 0}
    op = head[1]
    if head[0] != 2 or not 1 <= op <= 13:
        raise ValueError("no state operation")
    if head[12] != args_of.get(op, head[12]) or (op == OP_PHI and head[12] < 1):
        raise ValueError("arguments of operation %d" % op)
    out = {"head": head, "op": op, "flags": r.take(head[7])}
    out["first"] = (r.records(head[8], 3), r.records(head[9], 2))
    out["second"] = (r.records(head[10], 3), r.records(head[11], 2))
    out["args"] = r.take(head[12])
    r.end()
    return out


# The answer to a state operation, as a dictionary.
# Answer words, first access, then the resulting state.
def operation_answer(words):
    r = Reader(words)
    out = {"answer": r.take(r.one()), "access": r.take(3), "flag": r.one()}
    out["values"], out["sets"] = state(r)
    r.end()
    return out


# A listing as a dictionary: refusal, or effects, values, sets, first access.
# Each line must have the form of document 01 and end with a newline.
def listing(text):
    if not text.endswith("\n"):
        raise ValueError("no newline at the end")
    lines = [line.split(" ") for line in text[:-1].split("\n")]
    if lines[0][0] == "REFUSED":
        if len(lines) != 1 or len(lines[0]) != 2:
            raise ValueError("more than a refusal")
        return {"refused": int(lines[0][1])}
    out = {"refused": 0, "entries": int(lines[0][2]), "E": [], "V": [], "P": [], "U": []}
    for line in lines[1:]:
        out[line[0]].append([None if word == "-" else int(word) for word in line[1:]])
    letters = [line[0] for line in lines[1:]]
    if letters != sorted(letters, key="EVPU".index) or len(out["U"]) != 1:
        raise ValueError("lines out of order")
    if lines[0][0] != "OK" or int(lines[0][1]) != len(out["E"]) or any(len(e) != 6 for e in out["E"]):
        raise ValueError("effects of a listing")
    for part in (out["V"], out["P"]):
        if any(a[0] >= b[0] for a, b in zip(part, part[1:])):
            raise ValueError("listing is not ascending")
    return out
