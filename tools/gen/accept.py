"""What library jobs and state operations must keep to, so that the port accepts them.

Both are never damaged (docs/VECTORS.md): every number is in range, order is kept,
unused words are zero. Each function returns the slips it finds as texts.
"""

from names import *

# Words of a candidate record that its code uses, as in the readings of document 01.
USED = {FREEZE: {1, 4}, MUTATE: {1, 3}, CREATE: {2, 3, 4}, CREATE_FUNCTION: {2, 5, 6, 7}}
USED.update({c: {1} for c in ONE_PLACE})
USED.update({c: {1, 2} for c in FLOWS})
USED.update({c: {1, 3} for c in DIAGNOSED})
# Words of a cached number that its key uses: from, into, kind, reason, function, run.
CACHED = {CREATE: {2, 3, 4}, CREATE_FROM: {1, 2}, CREATE_FUNCTION: {2, 5, 6, 7},
          KEY_ASSIGN_FROZEN: {1, 2}, KEY_ASSIGN_COPY: {1, 2}}


# Whether a value number is fresh and below next, or an identifier's own.
# As in an image.
def number_ok(number, next_number, identifiers):
    return 0 < number < min(next_number, OWN) or OWN <= number < OWN + identifiers


# Slips of a state: order, ranges, the lone 0 of an empty set.
# `next_number` is 512 where the format holds none.
def state_slips(values, pairs, next_number, identifiers):
    out = []
    for keys in ([v[0] for v in values], [tuple(p) for p in pairs]):
        if any(a >= b for a, b in zip(keys, keys[1:])):
            out.append("values or pairs are not ascending")
    if any(not number_ok(n, next_number, identifiers) or k > 5 or r > 0xFFF for n, k, r in values):
        out.append("a value is out of range")
    empty = {i for i, n in pairs if n == 0}
    if any(i >= identifiers or (n and (i in empty or not number_ok(n, next_number, identifiers)))
           for i, n in pairs):
        out.append("a pair is out of range")
    return out


# Whether a run of places is inside the list and short enough.
# The first of an empty run is unused.
def run_ok(first, count, places, most):
    return count <= most and (first + count <= places if count else first == 0)


# Slips of a candidate record; `instances` is how many diagnostics it may name.
# Unused words are zero, used ones in range.
def candidate_slips(c, job, instances):
    places, used = len(job["places"]), USED.get(c[0])
    if used is None or any(c[w] for w in range(1, 8) if w not in used):
        return ["an unused word or code of a candidate"]
    kinds = {MUTATE: 1, CREATE: 5}
    kinds.update({code: instances - 1 for code in DIAGNOSED})
    ok = all(c[w] < places for w in (1, 2) if w in used)
    ok = ok and c[3] <= kinds.get(c[0], 0) and c[4] <= 11
    if c[0] == CREATE_FUNCTION:
        ok = ok and c[5] < len(job["functions"]) and run_ok(c[6], c[7], places, MAX_CAPTURES)
    return [] if ok else ["a candidate is out of range"]


# Slips of identifiers, places and functions.
# As in an image.
def table_slips(job):
    out, places, ids = [], len(job["places"]), len(job["identifiers"])
    if ids > MAX_IDENTIFIERS or len(job["functions"]) > MAX_FUNCTIONS:
        out.append("too many identifiers or functions")
    if any(f > 3 or n > 512 or (not f & HOISTED and (a or b)) for f, n, a, b in job["identifiers"]):
        out.append("an identifier is out of range")
    if any(p[0] >= ids or p[1] > 7 or p[2] > 1 for p in job["places"]):
        out.append("a place is out of range")
    for flags, c, cn, m, mn in job["functions"]:
        known = flags & KNOWN or not (flags & TRACKED or mn)
        if flags > 3 or not known or not run_ok(c, cn, places, 16) or not run_ok(m, mn, places, 32):
            out.append("a function is out of range")
    return out


# Slips of diagnostics, links and cached numbers.
# A diagnostic has its identifier's name; a number has at most one key, a key one number.
def context_slips(job, next_number):
    out, ids = [], job["identifiers"]
    for i, case, sentence, name, a, b, c, d in job["diagnostics"]:
        labels = (a, b) == NO_SPAN if case == 0 else (a, b) != (c, d) or (a, b) == NO_SPAN
        if i >= len(ids) or case > 1 or sentence > (0 if case else 10) or name != ids[i][1] or not labels:
            out.append("a diagnostic is out of range")
    if len({tuple(d) for d in job["diagnostics"]}) != len(job["diagnostics"]) or len(job["diagnostics"]) > 256:
        out.append("diagnostics are doubled or too many")
    numbers = [n for n, _ in job["links"]]
    if numbers != sorted(set(numbers)) or any(not 0 < n < next_number for n in numbers) \
            or any(f >= len(job["functions"]) for _, f in job["links"]):
        out.append("a link is out of range")
    keys = {(*c[:6], tuple(job["places"][p][0] for p in range(c[6], c[6] + c[7]))) for c in job["cached"]}
    numbers = {c[8] for c in job["cached"]}
    if len(keys) != len(job["cached"]) or len(numbers) != len(job["cached"]):
        out.append("a cached key or number is doubled")
    for c in job["cached"]:
        used = CACHED.get(c[0], set())
        if any(c[w] for w in range(1, 8) if w not in used) or max(c[1], c[2]) >= len(ids) or c[3] > 5 \
                or c[4] > 11 or not 0 < c[8] < next_number or not used \
                or (c[0] == CREATE_FUNCTION and c[5] >= len(job["functions"])) \
                or not run_ok(c[6], c[7], len(job["places"]), MAX_CAPTURES):
            out.append("a cached number is out of range")
    return out


# The identity of each diagnostic: its identifier, message case and sentence.
# Identities are numbered in the order in which they first appear.
def identities(job):
    order = []
    for d in job["diagnostics"]:
        if tuple(d[:3]) not in order:
            order.append(tuple(d[:3]))
    return [order.index(tuple(d[:3])) for d in job["diagnostics"]]


# The key of an interned record, as `effect_key` has it.
# Distinct keys are demanded of a job.
def key(c, job, identity):
    ident = lambda p: job["places"][p][0]
    used = USED[c[0]]
    out = [c[0]] + [ident(c[w]) for w in (1, 2) if w in used] + [c[4], c[5]]
    if c[0] == CREATE:
        out.append(c[3])
    if c[0] in (MUTATE_FROZEN, MUTATE_GLOBAL):
        out.append(identity[c[3]])
    return tuple(out + [ident(p) for p in range(c[6], c[6] + c[7])])


# All slips of a library job.
# An instruction may name a diagnostic that an earlier one made, so there only 256 bounds it.
def job_slips(job):
    head = job["head"]
    next_number, places = head[3], len(job["places"])
    out = [] if head[1] < 4 and head[2] < 2 and 1 <= next_number <= MAX_NEXT else ["the head is out of range"]
    if head[4] > len(job["identifiers"]) or (head[4] == 0 and (head[5] or head[6])):
        out.append("the first access is out of range")
    out += state_slips(job["values"], job["pairs"], next_number, len(job["identifiers"]))
    out += table_slips(job)
    for c in job["interned"]:
        out += candidate_slips(c, job, len(job["diagnostics"]))
    if not out:
        out += context_slips(job, next_number)
        identity = identities(job)
        keys = {key(c, job, identity) for c in job["interned"]}
        if len(keys) != len(job["interned"]) or len(keys) > MAX_INTERNED:
            out.append("interned keys are doubled or too many")
    for lvalue, own, candidates in job["instructions"]:
        if lvalue >= places or own > len(job["functions"]) or len(candidates) > MAX_CANDIDATES:
            out.append("an instruction is out of range")
        for c in candidates:
            out += candidate_slips(c, job, MAX_DIAGNOSTICS)
    return out


# All slips of a state operation: both states and the arguments.
# Fresh numbers have no next here, so all of 1..511 may stand.
def operation_slips(o):
    ids = o["head"][7]
    out = state_slips(*o["first"], MAX_NEXT, ids) + state_slips(*o["second"], MAX_NEXT, ids)
    if ids > MAX_IDENTIFIERS or any(f > 1 for f in o["flags"]) or max(o["head"][5:7]) > 1:
        out.append("identifiers or flags are out of range")
    if o["op"] < OP_MERGE and (o["second"] != ([], [])):
        out.append("a second state where none is used")
    args = o["args"]
    named = {OP_INITIALIZE: [], OP_DEFINE: args[:1], OP_MUTATE: args[1:2], OP_FREEZE: args[:1],
             OP_KIND_SPAN: args[:1]}.get(o["op"], args)
    ok = all(i < ids for i in named)
    if o["op"] == OP_INITIALIZE:
        ok = number_ok(args[0], MAX_NEXT, ids) and args[1] < 6 and args[2] < 0x1000
    if o["op"] == OP_DEFINE:
        ok = ok and number_ok(args[1], MAX_NEXT, ids)
    if (o["op"] == OP_MUTATE and args[0] > 3) or (o["op"] == OP_FREEZE and args[1] > 11):
        ok = False
    return out if ok else out + ["arguments are out of range"]
