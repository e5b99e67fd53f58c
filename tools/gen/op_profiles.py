"""Profiles of state operations, by operation and branch."""

from names import *
from op import Op
from shapes import *

# Numbers at the edges of 32- and 64-bit words and of the two ranges.
EDGES = [1, 31, 32, 33, 63, 64, 65, 127, 128, 510, 511]


# Starts an operation over `count` identifiers, some of them refs.
# A first access may already be recorded, which must then stay.
def begin(rng, op, count, access=None):
    o = Op(op, (rng.randrange(2), rng.randrange(2)))
    for _ in range(count):
        o.ident(ref=rng.random() < 0.15)
    if access if access is not None else rng.random() < 0.25:
        o.undefined(rng.randrange(count), *any_span(rng))
    return o


# The cases of operations that read one place: operation × shape × access recorded.
# kind, kind_with_span, is_defined, values_for.
def read_cases():
    return [("read", op, a, access)
            for op in (OP_KIND, OP_KIND_SPAN, OP_IS_DEFINED, OP_VALUES_FOR)
            for a in SHAPES for access in (False, True)]


# Builds one such case.
# One identifier of three has the shape, others stand beside it.
def read_op(rng, case):
    _, op, a, access = case
    o = begin(rng, op, 3, access)
    at, beside = rng.sample(range(3), 2)
    shape(o, rng, beside, rng.choice(SHAPES))
    shape(o, rng, at, a)
    o.args = [at] + (list(any_span(rng)) if op == OP_KIND_SPAN else [])
    return o


# The cases of a first access: who reads × which span × which identifier.
# An undefined place is recorded with the span of its first reading, once.
def access_cases():
    return [("access", op, span, at) for op in (OP_KIND_SPAN, OP_MUTATE) for span in SPANS
            for at in (0, 1, 2)]


# Builds one such case; a ref is not read by a mutation, so nothing is recorded.
# Nothing is recorded at the start.
def access_op(rng, case):
    _, op, span, at = case
    o = begin(rng, op, 3, False)
    shape(o, rng, (at + 1) % 3, rng.choice(SHAPES))
    o.args = ([rng.randrange(4)] if op == OP_MUTATE else []) + [at, *span]
    return o


# All pairs of kinds, joined over one place, and the order of their numbers.
# The table of joins, seen through `kind`.
def join_cases():
    return [("join", a, b) for a in range(6) for b in range(6)]


# Builds one join case; a third value without an entry takes no part.
# Reasons are joined by union.
def join_op(rng, case):
    _, a, b = case
    o = begin(rng, OP_KIND, 1)
    low, high = sorted(rng.sample(EDGES, 2))
    o.value(low, a, any_reasons(rng)), o.value(high, b, any_reasons(rng))
    o.points(0, [low, high] + ([OWN] if rng.random() < 0.3 else []))
    o.args = [0]
    return o


# The cases of freeze: shape × reason in threes.
# Acting or not decides answer and values.
def freeze_cases():
    return [("freeze", a, r) for a in SHAPES for r in (0, 5, 11)]


# Builds one freeze case over shared values.
# Another place shares a value and so changes its kind.
def freeze_op(rng, case):
    _, a, reason = case
    o = begin(rng, OP_FREEZE, 3)
    at, other = rng.sample(range(3), 2)
    shape(o, rng, at, a)
    o.points(other, (o.sets.get(at) or [])[:1] + [o.value(o.fresh(), rng.randrange(6), any_reasons(rng))])
    o.args = [at, reason]
    return o


# The cases of mutate_with_span: variant × shape × ref × access recorded.
# A ref is answered before the kind is read, so it records nothing.
def mutate_cases():
    return [("mutate", v, a, ref) for v in range(4) for a in SHAPES for ref in (False, True)]


# Builds one mutate case.
# The span goes into the access record.
def mutate_op(rng, case):
    _, variant, a, ref = case
    o = begin(rng, OP_MUTATE, 2)
    at = rng.randrange(2)
    o.identifiers[at][0] = REF if ref else 0
    shape(o, rng, at, a)
    o.args = [variant, at, *any_span(rng)]
    return o


# The cases of assign, append_alias: both sides' shapes.
# An undefined source, or side, has its own branch.
def two_cases():
    sides = ["undefined", "empty", "entryless", "Mutable", "joined", "partly"]
    return [("two", op, a, b) for op in (OP_ASSIGN, OP_APPEND) for a in sides for b in sides]


# Builds one such case; 512 + from may already have an entry.
# At times both sides are the same identifier.
def two_op(rng, case):
    _, op, a, b = case
    o = begin(rng, op, 3)
    into, source = rng.sample(range(3), 2)
    shape(o, rng, into, a)
    shape(o, rng, source, b)
    if rng.random() < 0.4:
        o.value(OWN + source, rng.randrange(6), any_reasons(rng))
    if rng.random() < 0.3 and into in o.sets and source in o.sets:
        o.points(source, o.sets[into] + o.sets[source])
    o.args = [into, source] if rng.random() < 0.9 else [source, source]
    return o


# The cases of initialize and define: the number or place is new or stands already.
# Numbers at the edges of words.
def write_cases():
    numbers = EDGES + [OWN, OWN + 1, OWN + 31, OWN + 32, OWN + 33]
    return [("write", op, n, stands) for op in (OP_INITIALIZE, OP_DEFINE)
            for n in numbers for stands in (False, True)]


# Builds one such case over enough identifiers for the own numbers.
# What stands is overwritten whole.
def write_op(rng, case):
    _, op, n, stands = case
    o = begin(rng, op, 3 if n < OWN + 3 else 34)
    if stands:
        o.value(n, rng.randrange(6), any_reasons(rng))
        o.points(0, rng.sample(EDGES, 3) + [n])
    o.points(1, [n, OWN])
    if op == OP_INITIALIZE:
        o.args = [n, rng.randrange(6), any_reasons(rng)]
    else:
        o.args = [0, n]
    return o


# The cases of infer_phi by what the operands are.
# Own operand, none defined, empty sets only, no operand at all.
def phi_cases():
    forms = ["own", "undefined", "empty", "none", "one", "many", "mixed", "repeated"]
    return [("phi", form, place) for form in forms for place in ("undefined", "empty", "joined", "partly")]


# Builds one phi case.
# The union is taken before the place is written.
def phi_op(rng, case):
    _, form, place = case
    o = begin(rng, OP_PHI, 6)
    shape(o, rng, 0, place)
    shape(o, rng, 1, "undefined"), shape(o, rng, 2, "empty")
    o.points(3, rng.sample(EDGES, 2)), o.points(4, rng.sample(EDGES, 4) + [OWN + 5])
    operands = {"own": [0, 3], "undefined": [1, 5], "empty": [2, 2], "none": [], "one": [3],
                "many": [3, 4, 3, 4], "mixed": [1, 2, 4], "repeated": [4, 4]}[form]
    o.args = [0] + operands
    return o


# Writes an own copy of the first state into the second.
# The start of every merge case.
def copy_state(o):
    o.other.values = {n: list(v) for n, v in o.values.items()}
    o.other.sets = {i: list(v) for i, v in o.sets.items()}


# What the second state has more, or less, than the first.
# Each alone shows one branch; some are None for `merge`.
def differ(o, rng, how):
    other = o.other
    numbers = sorted(other.values)
    if how == "kind":
        n = rng.choice(numbers)
        other.values[n][0] = (other.values[n][0] + rng.randrange(1, 6)) % 6
    elif how == "reasons":
        other.values[rng.choice(numbers)][1] |= 1 << rng.randrange(12)
    elif how == "fewer reasons":
        other.values[rng.choice(numbers)][1] = 0
    elif how == "new value":
        other.value(200 + rng.randrange(5), rng.randrange(6), any_reasons(rng))
    elif how == "value gone":
        del other.values[rng.choice(numbers)]
    elif how == "new place":
        other.points(len(o.identifiers) - 1, rng.sample(EDGES, 2))
    elif how == "new empty place":
        other.points(len(o.identifiers) - 1, [])
    elif how == "larger set":
        i = rng.choice(sorted(other.sets))
        other.points(i, other.sets[i] + rng.sample(EDGES, 2))
    elif how == "smaller set":
        i = rng.choice(sorted(other.sets))
        other.points(i, other.sets[i][1:])
    elif how == "place gone":
        del other.sets[rng.choice(sorted(other.sets))]
    elif how == "empty":
        other.values, other.sets = {}, {}


DIFFER = ["nothing", "kind", "reasons", "fewer reasons", "new value", "value gone", "new place",
          "new empty place", "larger set", "smaller set", "place gone", "empty"]


# The cases of merge and merge_from: one difference × both operations × both flags.
# The left flag is kept whatever the right one is.
def merge_cases():
    return [("merge", op, how, flags) for op in (OP_MERGE, OP_MERGE_FROM) for how in DIFFER
            for flags in ((0, 1), (1, 0), (0, 0), (1, 1))]


# Builds one merge case; under the other pairs of flags often with two differences.
# An access may be recorded: merge_from clears it.
def merge_op(rng, case):
    _, op, how, flags = case
    o = begin(rng, op, 4)
    o.flags = flags
    for n in rng.sample(EDGES, 3) + [OWN + 1]:
        o.value(n, rng.randrange(6), any_reasons(rng))
    o.points(0, rng.sample(sorted(o.values), 2))
    o.points(1, rng.sample(sorted(o.values) + [300], 2))
    o.points(2, rng.choice([[], [OWN + 1]]))
    copy_state(o)
    differ(o, rng, how)
    if flags != (0, 1) and rng.random() < 0.5 and o.other.values and o.other.sets:
        differ(o, rng, rng.choice(DIFFER[:-1]))
    return o


# Kinds of values in both states: all pairs, for both merges.
# A join that leaves the own kind changes nothing by itself.
def merge_kind_cases():
    return [("merge kinds", op, a, b) for op in (OP_MERGE, OP_MERGE_FROM)
            for a in range(6) for b in range(6)]


# Builds one such case with equal or contained reasons.
# The kind alone then decides.
def merge_kind_op(rng, case):
    _, op, a, b = case
    o = begin(rng, op, 1)
    reasons = any_reasons(rng)
    o.value(7, a, reasons)
    o.other.value(7, b, reasons if rng.random() < 0.5 else reasons & any_reasons(rng))
    return o


# Two unrelated random states merged.
# All branches at once.
def merge_random(rng):
    o = begin(rng, rng.choice([OP_MERGE, OP_MERGE_FROM]), 5)
    pool = EDGES + [OWN, OWN + 1, OWN + 4]
    for state in (o, o.other):
        for n in rng.sample(pool, rng.randrange(0, 6)):
            state.value(n, rng.randrange(6), any_reasons(rng))
        for i in range(5):
            if rng.random() < 0.6:
                state.points(i, rng.sample(pool, rng.randrange(0, 4)))
    return o


# A set over the whole range of numbers, 512 identifiers.
# 1023 and 512 stand at the ends of the row of bits.
def whole_range(rng, op=None):
    op = op or rng.choice([OP_KIND, OP_VALUES_FOR, OP_FREEZE, OP_PHI, OP_APPEND, OP_ASSIGN])
    o = begin(rng, op, 512)
    ends = [1, 31, 32, 63, 64, 511, 512, 513, 543, 544, 575, 576, 1022, 1023]
    for n in ends:
        if rng.random() < 0.7:
            o.value(n, rng.choice([MUTABLE, PRIMITIVE, rng.randrange(6)]), any_reasons(rng))
    o.points(511, ends)
    o.points(0, rng.sample(ends, 3))
    o.args = {OP_KIND: [511], OP_VALUES_FOR: [511], OP_FREEZE: [511, R_JSX], OP_PHI: [0, 511, 0],
              OP_APPEND: [0, 511], OP_ASSIGN: [0, rng.choice([511, 510])]}[op]
    return o


# A set of many values, all with entries.
# Joins over long rows.
def many_values(rng):
    o = begin(rng, rng.choice([OP_KIND, OP_FREEZE, OP_VALUES_FOR, OP_MUTATE]), 2)
    numbers = rng.sample(range(1, 512), rng.randrange(10, 30))
    kind = rng.choice([MUTABLE, PRIMITIVE, FROZEN, GLOBAL])
    for n in numbers:
        o.value(n, kind if rng.random() < 0.9 else rng.randrange(6), any_reasons(rng))
    o.points(0, numbers)
    o.args = {OP_KIND: [0], OP_VALUES_FOR: [0], OP_FREEZE: [0, rng.randrange(12)],
              OP_MUTATE: [rng.randrange(4), 0, 1, 2]}[o.op]
    return o


EXHAUSTIVE = [
    (read_cases, read_op), (access_cases, access_op), (join_cases, join_op), (freeze_cases, freeze_op),
    (mutate_cases, mutate_op), (two_cases, two_op), (write_cases, write_op),
    (phi_cases, phi_op), (merge_cases, merge_op), (merge_kind_cases, merge_kind_op),
]

# Weight, tag, profile of the random ones.
# The exhaustive cases carry most of the branches.
RANDOM = [(10, "merge random", merge_random), (5, "many values", many_values),
          (0.4, "whole range", whole_range)]

# The ends of the row of bits, each operation that goes through a set.
# 512 identifiers each, so only a handful.
GIANTS = [("whole range " + OP_NAMES[op], lambda rng, op=op: whole_range(rng, op))
          for op in (OP_KIND, OP_VALUES_FOR, OP_FREEZE, OP_PHI, OP_APPEND, OP_ASSIGN)]


# All cases of the exhaustive spaces as (tag, build, case).
# The list does not depend on a seed, only the build's details do.
def all_cases():
    out = []
    for cases, build in EXHAUSTIVE:
        for case in cases():
            tag = [OP_NAMES[p] if k == 1 and case[0] in ("read", "access", "two", "write", "merge", "merge kinds")
                   else str(p) for k, p in enumerate(case)]
            out.append((" ".join(tag), build, case))
    return out
