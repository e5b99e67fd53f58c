"""Profiles of library jobs. Each returns a Job and says by its tag what it aims at."""

import random

from candidates import *
from job import Job
from names import *
from shapes import *
from world import *

# ----------------------------------------------------- pieces of a context


# The same candidate with other places of the same identifiers.
# Its key is equal, so what is interned first decides spans, Effect and reactive.
def varied(job, rng, c):
    other = list(c)
    place = lambda p: any_place(job, rng, job.places[p][0])
    code = c[0]
    if code in (CREATE, CREATE_FUNCTION) or code in FLOWS:
        other[2] = place(c[2])
    if code not in (CREATE, CREATE_FUNCTION):
        other[1] = place(c[1])
    if code == MUTATE:
        other[3] = rng.randrange(2)
    if code == CREATE_FUNCTION and c[7]:
        run = job.run([(job.places[p][0], rng.randrange(8), rng.randrange(2), any_span(rng))
                       for p in range(c[6], c[6] + c[7])])
        other[6] = run[0]
    return other


# Interns at the start some variants of the candidates, and of what they derive.
# So the interned places and the candidates' own places can be told apart.
def intern_some(job, rng, candidates, share=0.4):
    for c in candidates:
        if rng.random() < share:
            job.intern(varied(job, rng, c))
        if c[0] in FLOWS and rng.random() < share:
            derived = flow(rng.choice([IMMUTABLE_CAPTURE, MAYBE_ALIAS]), c[1], c[2])
            job.intern(varied(job, rng, derived))
        if c[0] == CREATE_FUNCTION and c[7] and rng.random() < share:
            job.intern(varied(job, rng, flow(CAPTURE, c[6], c[2])))
        if c[0] in (MUTATE, MUTATE_TRANS) and job.diagnostics and rng.random() < share:
            instance = rng.randrange(len(job.diagnostics))
            code = rng.choice([MUTATE_FROZEN, MUTATE_GLOBAL])
            job.intern(diagnosed(code, any_place(job, rng, job.places[c[1]][0]), instance))


# A fresh number for the cache: mostly unused so far, at times one that has an entry.
# A number below next with at most one key.
def number_to_cache(job, rng):
    taken = {c[8] for c in job.cached}
    old = [n for n in range(1, job.next) if n not in taken]
    if old and rng.random() < 0.3:
        return rng.choice(old)
    return job.fresh()


# Caches numbers under the keys that the candidates will ask for.
# For Assign the synthetic keys; a wrong one of the two is simply never asked for.
def cache_some(job, rng, candidates, share=0.4):
    for c in candidates:
        if rng.random() >= share or job.next > 500:
            continue
        ident = lambda p: job.places[p][0]
        if c[0] == CREATE:
            job.cache(number_to_cache(job, rng), CREATE, 0, ident(c[2]), c[3], c[4])
        elif c[0] == CREATE_FROM:
            job.cache(number_to_cache(job, rng), CREATE_FROM, ident(c[1]), ident(c[2]))
        elif c[0] == ASSIGN:
            code = rng.choice([KEY_ASSIGN_FROZEN, KEY_ASSIGN_COPY])
            job.cache(number_to_cache(job, rng), code, ident(c[1]), ident(c[2]))
        elif c[0] == CREATE_FUNCTION:
            run = (c[6], c[7])
            job.cache(number_to_cache(job, rng), CREATE_FUNCTION, 0, ident(c[2]), 0, 0, c[5], run)


# Adds diagnostics of the job's identifiers, distinct ones.
# Case 0 has only its own label; case 1's access label differs from its own.
def diagnostics_some(job, rng, ids, count):
    for _ in range(count):
        i, own = rng.choice(ids), any_span(rng)
        if rng.random() < 0.7:
            job.diagnostic(i, 0, rng.randrange(11), own)
        else:
            access = rng.choice([s for s in SPANS if s != own] + [NO_SPAN])
            job.diagnostic(i, 1, 0, own, access)


# Links some fresh numbers below next to functions.
# The number need not have an entry or be in a set.
def link_some(job, rng, share=0.3):
    if not job.functions:
        return
    for n in range(1, min(job.next, OWN)):
        if rng.random() < share:
            job.link(n, rng.randrange(len(job.functions)))


# Random session: flag, first access, walk entries, some numbers spent.
# None of it must change what is not its own.
def session_some(job, rng, ids):
    job.flag = rng.randrange(2)
    job.next = min(MAX_NEXT, job.next + rng.choice([0, 0, 1, 7]))
    if rng.random() < 0.25:
        job.undefined(rng.choice(ids), any_span(rng))
    job.walked = rng.choice([0, 0, 3, 4096])


# ------------------------------------------------------------ random jobs


# Any job: state, functions, all parts of a context, 1 to 5 instructions.
# Lists are drawn first, so that the context can be made to meet them.
def random_job(rng, most=5):
    job = Job(options=rng.randrange(4))
    ids = any_state(job, rng, rng.randrange(1, 6))
    for _ in range(rng.randrange(4)):
        any_function(job, rng, ids, 3)
    diagnostics_some(job, rng, ids, rng.choice([0, 0, 1, 2, 4]))
    codes = usable_codes(job, True)
    lists = [any_list(job, rng, ids, rng.randrange(1, 6), codes)
             for _ in range(rng.randrange(1, most + 1))]
    flat = [c for some in lists for c in some]
    if rng.random() < 0.6:
        intern_some(job, rng, flat)
    if rng.random() < 0.6:
        cache_some(job, rng, flat)
    if rng.random() < 0.6:
        link_some(job, rng)
    session_some(job, rng, ids)
    for some in lists:
        own = rng.randrange(len(job.functions)) if job.functions and rng.random() < 0.3 else None
        job.instruction(any_place(job, rng, rng.choice(ids)), some, own)
    if rng.random() < 0.3:
        job.instructions.append(rng.choice(job.instructions))
    return job


# The same instruction two or three times, as in a fixpoint.
# The second run hits cached numbers, interned effects and shared diagnostics.
def rerun(rng):
    job = Job(options=rng.randrange(4))
    ids = any_state(job, rng, rng.randrange(2, 5))
    any_function(job, rng, ids, 3)
    makers = [CREATE, CREATE_FROM, CREATE_FUNCTION, ASSIGN, CAPTURE, MUTATE, FREEZE]
    some = any_list(job, rng, ids, rng.randrange(1, 5), makers)
    own = 0 if rng.random() < 0.3 else None
    lvalue = any_place(job, rng, rng.choice(ids))
    for _ in range(rng.randrange(2, 4)):
        job.instruction(lvalue, some, own)
    if rng.random() < 0.4:
        job.instruction(lvalue, [varied(job, rng, c) for c in some], own)
    return job


# One effect twice, with other span, Effect, reactive or mutation reason.
# In one instruction, over two, or against the context's interned ones.
def shared_key(rng, code=None):
    job = Job()
    ids = [any_ident(job, rng, hoisted=0.4) for _ in range(2)]
    for i in ids:
        shape(job, rng, i, rng.choice(SHAPES))
    any_function(job, rng, ids, 2)
    diagnostics_some(job, rng, ids, rng.randrange(1, 4))
    code = rng.choice([c for c in range(18) if c != APPLY]) if code is None else code
    c = any_candidate(job, rng, ids, code)
    twice = [c, varied(job, rng, c)]
    if code == ALIAS:
        twice.insert(0, create(c[2], MUTABLE, R_OTHER))
    if rng.random() < 0.4:
        intern_some(job, rng, [c], 0.8)
    if rng.random() < 0.5 and code not in (CREATE, CREATE_FROM, CREATE_FUNCTION, ASSIGN):
        job.instruction(c[1] if code != CREATE else c[2], twice)
    else:
        for one in twice[-2:]:
            job.instruction(one[2] or one[1], twice[:-2] + [one])
    return job


# ------------------------------------------------- sentences and messages


# All cases (kind, reasons): each reason alone, none, and all pairs of reasons.
# Pairs show which reason the sentence goes by.
def sentence_cases():
    singles = [0] + [1 << r for r in range(12)]
    pairs = [1 << a | 1 << b for a in range(12) for b in range(a)]
    return [("sentence", kind, reasons) for kind in (FROZEN, MAYBE_FROZEN, GLOBAL)
            for reasons in singles + pairs]


# Builds one such case: both mutations that report, on one place.
# Three kinds go three ways to their message.
def sentence_job(rng, case):
    _, kind, reasons = case
    job = Job()
    i = any_ident(job, rng, refs=0, hoisted=0.1)
    job.holds(i, kind, reasons)
    a, b = any_place(job, rng, i), any_place(job, rng, i)
    job.instruction(a, [mutate(a, rng.randrange(2)), one_place(MUTATE_TRANS, b)])
    return job


# All cases of labels: kind × access span × place's span × name, hoisted.
# Which labels a message of case 1 has, and how records share.
def label_cases():
    accesses = [None, NO_SPAN, (10, 12), (20, 25)]
    return [("label", kind, access, span, name) for kind in (FROZEN, MAYBE_FROZEN, GLOBAL)
            for access in accesses for span in (NO_SPAN, (10, 12), (20, 25)) for name in (0, 3)]


# Builds one label case, with the reverse spans in a second instruction.
# One span as access label and the same as own label are two instances.
def label_job(rng, case):
    _, kind, access, span, name = case
    job = Job(flag=rng.randrange(2))
    i = job.ident(False, access, name)
    job.holds(i, kind, any_reasons(rng))
    a = job.place(i, 0, 0, span)
    b = job.place(i, 6, 1, rng.choice([NO_SPAN, (10, 12), (20, 25)]))
    job.instruction(a, [mutate(a), one_place(MUTATE_TRANS, b)])
    job.instruction(a, [mutate(b), one_place(MUTATE_TRANS, a)])
    return job


# Two identifiers with equal names, spans and sentences, in one table.
# Their identities differ all the same.
def equal_records(rng):
    job = Job()
    access = rng.choice([None, NO_SPAN, (20, 25)])
    name, kind, reasons = rng.choice([0, 1]), rng.choice([FROZEN, MAYBE_FROZEN, GLOBAL]), any_reasons(rng)
    ids = [job.ident(False, access, name) for _ in range(2)]
    for i in ids:
        job.holds(i, kind, reasons)
    span = rng.choice([NO_SPAN, (10, 12), (20, 25)])
    places = [job.place(i, 0, 0, span) for i in ids]
    if rng.random() < 0.5:
        diagnostics_some(job, rng, ids, 2)
    job.instruction(places[0], [mutate(p) for p in places] * 2)
    job.instruction(places[1], [one_place(MUTATE_TRANS, p) for p in places])
    return job


# Own function in a job: early MutateFrozen with and without a hoisted identifier.
# Then the same mutation by a candidate, whose message may be the other case.
def early_job(rng):
    job = Job(options=rng.randrange(4))
    ids = [any_ident(job, rng, refs=0.1, hoisted=0.4) for _ in range(rng.randrange(1, 4))]
    for i in ids:
        shape(job, rng, i, rng.choice(["Frozen", "Frozen", "Frozen", rng.choice(SHAPES)]))
    inside = rng.sample(ids, rng.randrange(1, len(ids) + 1))
    context = job.run([(i, rng.randrange(8), 0, any_span(rng)) for i in inside])
    mutated = job.run([(rng.choice(ids), rng.randrange(8), rng.randrange(2), any_span(rng))
                       for _ in range(rng.randrange(1, 5))])
    own = job.function(context, mutated, rng.choice([KNOWN, KNOWN | TRACKED]))
    if rng.random() < 0.5:
        diagnostics_some(job, rng, ids, 2)
    place = any_place(job, rng, rng.choice(ids))
    job.instruction(place, [mutate(place)] if rng.random() < 0.7 else [], own)
    if rng.random() < 0.5:
        job.instruction(place, [freeze(place, rng.randrange(12)), mutate(place)], own)
        job.instruction(place, [], own)
    return job


# Codes 14, 15 and 16 as candidates, with instances of the table.
# Equal identity with another instance: the interned effect with its diagnostic refreshed.
def diagnosed_job(rng):
    job = Job()
    ids = [any_ident(job, rng, hoisted=0.3) for _ in range(rng.randrange(1, 3))]
    for i in ids:
        shape(job, rng, i, rng.choice(SHAPES))
    diagnostics_some(job, rng, ids, rng.randrange(2, 6))
    for _ in range(rng.randrange(1, 4)):
        some = [diagnosed(rng.choice(DIAGNOSED), any_place(job, rng, rng.choice(ids)),
                          rng.randrange(len(job.diagnostics))) for _ in range(rng.randrange(1, 4))]
        if rng.random() < 0.4:
            some.append(mutate(any_place(job, rng, rng.choice(ids))))
        if rng.random() < 0.4:
            intern_some(job, rng, some)
        job.instruction(some[0][1], some)
    return job


# A message made by one instruction is named by a candidate of the next.
# The table is empty at the start, so instance 0 exists only by then.
def made_then_named(rng):
    job = Job()
    i = any_ident(job, rng, refs=0, hoisted=0.4)
    job.holds(i, rng.choice([FROZEN, GLOBAL, MAYBE_FROZEN]), any_reasons(rng))
    a = any_place(job, rng, i)
    job.instruction(a, [mutate(a)])
    job.instruction(a, [diagnosed(code, any_place(job, rng, i), 0) for code in DIAGNOSED])
    return job


# ------------------------------------------------------------------- walks


# Case 18: p = {f}, x = {f, g}; f's function has x in its context.
# f below g never ends (11); f above g makes 3 entries.
def case_18(rng, endless, option=3):
    job = Job(options=option)
    p, x = job.plain(2)
    low, high = job.fresh(), job.fresh()
    f, g = (low, high) if endless else (high, low)
    job.value(f, MUTABLE, 0), job.value(g, MUTABLE, 0)
    job.points(p, [f]), job.points(x, [f, g])
    job.link(f, job.function(job.run([(x, E_CAPTURE)])))
    place = job.place(p)
    job.instruction(place, [freeze(place, rng.randrange(12))])
    job.instruction(place, [mutate(job.place(x, 0, 0, (1, 2)))])
    return job


# Adds a walk of exactly (k + 1) * (n + 1) + extra entries to a job.
# A set of n values is gone through k + 1 times, nested, before its last value is reached:
# each pass wakes one more of k single places, whose value leads back to the set.
def nested(job, rng, k, n, extra=0):
    p, x = job.plain(2)
    singles = job.plain(k)
    back = job.function(job.run([(x, rng.choice([E_CAPTURE, E_READ]))]))
    top = job.value(job.fresh(), MUTABLE, 0)
    job.link(top, back)
    job.points(p, [top] + [job.fresh() for _ in range(extra)])
    wake = [job.fresh() for _ in range(n - 1)]
    for at in range(0, k, 16):
        job.link(wake[at // 16], job.function(job.run([(t, E_CAPTURE) for t in singles[at:at + 16]])))
    for t in singles:
        u = job.value(job.fresh(), rng.choice([MUTABLE, CONTEXT, MAYBE_FROZEN]), 0)
        job.points(t, [u])
        job.link(u, back)
    last = job.value(job.fresh(), MUTABLE, 0)
    job.points(x, wake + [last])
    return p


# A job with one or two such walks in one instruction, and a small one behind.
# Each Freeze starts from zero; the answer counts all of them.
def nested_job(rng, sizes, option=None):
    job = Job(options=option or rng.choice([1, 2, 3]))
    tops = [nested(job, rng, *size) for size in sizes]
    places = [job.place(p) for p in tops]
    job.instruction(places[0], [freeze(p, rng.randrange(12)) for p in places])
    x = tops[0] + 1
    job.instruction(places[0], [freeze(job.place(x), rng.randrange(12))])
    return job


# Random small nested walks.
# Same form, with numbers far from the limit.
def nested_small(rng):
    k = rng.randrange(1, 5)
    return nested_job(rng, [(k, rng.randrange(2, 6), rng.randrange(3))])


# Random graph of functions by links, few values, both options.
# Cycles that never end are refused with 11; the rest ends quickly.
def walk_random_job(rng):
    job = Job(options=rng.choice([0, 1, 2, 3, 3]))
    ids = [any_ident(job, rng, refs=0.1, hoisted=0) for _ in range(rng.randrange(2, 6))]
    numbers = [job.fresh() for _ in range(rng.randrange(2, 7))]
    for n in numbers:
        if rng.random() < 0.85:
            job.value(n, rng.choice([MUTABLE, MUTABLE, MUTABLE, CONTEXT, MAYBE_FROZEN, rng.randrange(6)]),
                      any_reasons(rng))
    for i in ids:
        if rng.random() < 0.9:
            job.points(i, rng.sample(numbers, min(len(numbers), rng.choice([0, 1, 1, 2, 2, 3]))))
    for _ in range(rng.randrange(1, 4)):
        context = [(rng.choice(ids), rng.randrange(8)) for _ in range(rng.randrange(0, 4))]
        job.function(job.run(context))
    link_some(job, rng, 0.6)
    for _ in range(rng.randrange(1, 4)):
        some = [freeze(any_place(job, rng, rng.choice(ids)), rng.randrange(12))
                for _ in range(rng.randrange(1, 3))]
        job.instruction(any_place(job, rng, rng.choice(ids)), some)
    return job


# A frozen place with several function values whose contexts share values.
# The order in which its values are entered changes the count.
def top_order(rng):
    job = Job(options=rng.choice([1, 2, 3]))
    p = job.ident()
    held = job.plain(rng.randrange(2, 5))
    shared = [job.value(job.fresh(), rng.choice([MUTABLE, CONTEXT]), 0) for _ in range(3)]
    tops = [job.value(job.fresh(), MUTABLE, 0) for _ in range(rng.randrange(2, 4))]
    job.points(p, tops)
    for k, i in enumerate(held):
        job.points(i, rng.sample(shared, min(3, 1 + k)))
    rng.shuffle(held)
    for k, n in enumerate(tops):
        job.link(n, job.function(job.run([(i, E_READ) for i in held[k::len(tops)]])))
    place = job.place(p)
    job.instruction(place, [freeze(place, rng.randrange(12))])
    return job


# A cached number of CreateFunction that is linked to another function, or to none.
# The effect links it anew, and the later Freeze walks by the new link.
def relink(rng):
    job = Job(options=rng.choice([1, 2, 3]))
    into, a, b = job.plain(3)
    job.holds(a, MUTABLE, 0), job.holds(b, CONTEXT, 0)
    for i in (a, b):
        job.function(job.run([(i, E_CAPTURE)]), flags=KNOWN | TRACKED)
    number = job.fresh()
    new = rng.randrange(2)
    run = job.run([(a, E_READ)] * rng.randrange(2))
    job.cache(number, CREATE_FUNCTION, 0, into, 0, 0, new, run)
    if rng.random() < 0.8:
        job.link(number, 1 - new)
    place = job.place(into)
    job.instruction(place, [create_function(place, new, run)])
    job.instruction(place, [freeze(place, rng.randrange(12))])
    return job


# CreateFunction in one instruction, its link used by a Freeze of a later one.
# Also over a second CreateFunction that relinks the same cached number.
def link_then_freeze(rng):
    job = Job(options=rng.choice([1, 2, 3]))
    ids = any_state(job, rng, 3)
    holder = job.ident()
    any_function(job, rng, ids, 4)
    any_function(job, rng, ids + [holder], 4)
    run = any_captures(job, rng, ids, 3)
    make = create_function(job.place(holder), rng.randrange(2), run)
    job.instruction(job.place(holder), [make])
    some = [freeze(job.place(holder), rng.randrange(12))]
    if rng.random() < 0.5:
        some.insert(0, flow(ASSIGN, job.place(holder), job.place(ids[0])))
    job.instruction(job.place(ids[0]), some)
    if rng.random() < 0.5:
        job.instruction(job.place(holder), [make])
        job.instruction(job.place(holder), some)
    return job


# CreateFunction into one place with other functions and other captures.
# All of these are different keys, each with its own number and link.
def function_keys(rng):
    job = Job(options=rng.randrange(4))
    ids = any_state(job, rng, 3)
    for _ in range(2):
        any_function(job, rng, ids, 2)
    a, b = rng.sample(ids, 2)
    place = job.place(job.ident())
    runs = [job.run([(i, E_CAPTURE) for i in some]) for some in ([a, b], [b, a], [a], [a, a])]
    runs.append((0, 0))
    made = [create_function(place, f, run) for f in range(2) for run in rng.sample(runs, 2)]
    rng.shuffle(made)
    if rng.random() < 0.5:
        intern_some(job, rng, made[:1], 1)
        cache_some(job, rng, made[1:2], 1)
    for c in made + made[:1]:
        job.instruction(place, [c] + ([freeze(place, R_JSX)] if rng.random() < 0.4 else []))
    return job


# A deep chain: values 1..n, each with a function that leads to the next identifier's set.
# Functions are shared, 16 context places each; depth is limited only by the numbers.
def chain_job(rng, n=40):
    job = Job(options=rng.choice([1, 2, 3]))
    ids = job.plain(n)
    for i in ids:
        job.holds(i, rng.choice([MUTABLE, CONTEXT, MAYBE_FROZEN]), 0)
    for at in range(0, n, 16):
        job.function(job.run([(i, E_CAPTURE) for i in ids[at:at + 16]]))
    for i in ids:
        job.link(i + 1, min(len(job.functions) - 1, (i + 1) // 16))
    place = job.place(ids[0])
    job.instruction(place, [freeze(place, R_JSX)])
    return job


# ------------------------------------------------------------ near the limits


# Next near 512, with some numbers cached: a hit needs no fresh number.
# Refusal 9 only when a number is really needed.
def numbers_job(rng):
    job = Job(options=rng.randrange(4), next=rng.choice([509, 510, 511, 512]))
    ids = [any_ident(job, rng) for _ in range(rng.randrange(2, 5))]
    for i in ids:
        if rng.random() < 0.8:
            job.points(i, [job.value(rng.choice([OWN + i, 1 + i]), rng.randrange(6), any_reasons(rng))])
    job.function(flags=rng.choice([0, 3]))
    codes = [CREATE, CREATE_FROM, CREATE_FUNCTION, ASSIGN, ASSIGN]
    lists = [any_list(job, rng, ids, rng.randrange(1, 4), codes) for _ in range(rng.randrange(1, 5))]
    spare = list(range(100, 120))
    ident = lambda p: job.places[p][0]
    for c in [c for some in lists for c in some]:
        if rng.random() < 0.5:
            n = spare.pop()
            if c[0] == CREATE:
                job.cache(n, CREATE, 0, ident(c[2]), c[3], c[4])
            elif c[0] == CREATE_FUNCTION:
                job.cache(n, CREATE_FUNCTION, 0, ident(c[2]), 0, 0, c[5], (c[6], c[7]))
            elif c[0] == CREATE_FROM:
                job.cache(n, CREATE_FROM, ident(c[1]), ident(c[2]))
            else:
                job.cache(n, rng.choice([18, 19]), ident(c[1]), ident(c[2]))
    for some in lists:
        job.instruction(any_place(job, rng, rng.choice(ids)), some)
    return job


# A diagnostics table with `count` records of few identifiers.
# The next new one is the 257th, or there is room for it.
def diagnostics_limit(rng, count=None):
    count = count or rng.choice([253, 254, 255, 256, 256])
    job = Job()
    ids = [job.ident(False, rng.choice([None, (20, 25)]), rng.randrange(3)) for _ in range(3)]
    for i in ids:
        job.holds(i, rng.choice([FROZEN, FROZEN, GLOBAL, MAYBE_FROZEN]), 1 << rng.randrange(12))
    while len(job.diagnostics) < count:
        k = len(job.diagnostics)
        job.diagnostic(ids[k % 3], 0, rng.randrange(11), (k // 33, k + 1))
    own = job.function(job.run([(ids[0], E_CAPTURE)]), job.run([(ids[0], 6, 0, (900, 901))]), KNOWN)
    old = job.diagnostics[rng.randrange(count)]
    named = job.place(old[0], 0, 0, (old[6], old[7]))
    for _ in range(rng.randrange(2, 5)):
        place = rng.choice([named, job.place(rng.choice(ids), 0, 0, (rng.randrange(700, 900), 950))])
        job.instruction(place, [rng.choice([mutate(place), one_place(MUTATE_TRANS, place)])],
                        rng.choice([None, None, own]))
    return job


# 255 diagnostics and an own function that makes two more, then one, then none.
# The early MutateFrozen counts toward refusal 10 as a candidate's does.
def early_limit(rng):
    job = Job()
    a, b = job.ident(name=1), job.ident(name=2)
    job.holds(a, FROZEN, 1 << R_STATE), job.holds(b, FROZEN, 0)
    while len(job.diagnostics) < 255:
        k = len(job.diagnostics)
        job.diagnostic(rng.choice([a, b]), 0, k % 11, (k, k + 1))
    context = job.run([(a, E_CAPTURE), (b, E_CAPTURE)])
    two = job.function(context, job.run([(a, E_MUTATE, 0, (900, 901)), (b, E_MUTATE, 0, (900, 901))]), KNOWN)
    one = job.function(context, job.run([(b, E_MUTATE, 0, (900, 901))]), KNOWN)
    place = job.place(a, 0, 0, (902, 903))
    for own, some in ((two, []), (one, []), (one, [mutate(place)]), (two, []), (None, [mutate(place)])):
        job.instruction(place, some, own)
    return job


# 256 identities, one instance each: 22 identifiers with all sentences and case 1.
# An old instance passes, a new label or a new identity is refused with 10.
def identities_limit(rng):
    job = Job()
    ids = [job.ident(False, None, 1) for _ in range(22)] + [job.ident(False, (1, 2), 1)]
    for i in ids:
        job.holds(i, FROZEN, 0)
    for i in ids[:22]:
        for sentence in range(11):
            job.diagnostic(i, 0, sentence, (5, 6))
    for i in ids[:14]:
        job.diagnostic(i, 1, 0, (5, 6))
    for i, span in ((0, (5, 6)), (0, (5, 7)), (22, (5, 6)), (1, (5, 6))):
        place = job.place(ids[i], 0, 0, span)
        job.instruction(place, [mutate(place)])
    return job


# `count` interned keys over few identifiers, with a full or nearly full table of messages.
# Then instructions at the edge: 8 before 6 and 7, 8 against 9 and 10, old keys that pass.
def interned_limit(rng, count, messages, next_number):
    job = Job(next=512)
    job.next = next_number
    ids = job.plain(24)
    job.value(1, FROZEN, 1 << R_STATE), job.value(2, MUTABLE, 0)
    job.points(0, [1]), job.points(1, [2])
    places = [job.place(i, 0, 0, (i, i + 1)) for i in ids]
    job.function()
    for k in range(messages):
        job.diagnostic(5, 0, k % 11, (k, 2 * k + 1))
    pool = [mutate(0), flow(ASSIGN, 0, 2), flow(CREATE_FROM, 0, 3), create(4, MUTABLE, R_OTHER),
            create_function(6, 0, (1, 1)), flow(ASSIGN, 1, 7), flow(ALIAS, 1, 8)]
    for i in places:
        pool += [one_place(c, i) for c in ONE_PLACE] + [freeze(i, r) for r in range(12)]
        pool += [flow(CAPTURE, i, j) for j in places[10:]] + [flow(MAYBE_ALIAS, i, j) for j in places[10:]]
        pool += [create(i, k, r) for k in range(1, 6) for r in range(12)]
        pool += [flow(IMMUTABLE_CAPTURE, i, j) for j in places[14:]]
    for c in pool:
        if len(job.interned) < count:
            job.intern(c)
    new = lambda k: job.place(ids[k], 1, 1, (100, 200))
    job.instruction(0, [one_place(RENDER, new(3)), freeze(new(1), R_JSX)])
    job.instruction(0, [flow(IMMUTABLE_CAPTURE, new(0), new(1))])
    job.instruction(0, [flow(IMMUTABLE_CAPTURE, new(2), new(1))])
    job.instruction(0, [mutate(new(0))])
    job.instruction(0, [flow(ASSIGN, new(0), new(2))])
    job.instruction(0, [flow(CREATE_FROM, new(0), new(3))])
    job.instruction(0, [create_function(new(6), 0, (1, 1))])
    job.instruction(0, [flow(ALIAS, new(1), new(8))])
    job.instruction(0, [flow(ALIAS, new(1), new(9))])
    job.instruction(0, [create(new(4), MUTABLE, R_OTHER), create(new(4), MUTABLE, R_STATE)])
    job.instruction(0, [flow(ASSIGN, new(1), new(7))])
    job.instruction(0, [one_place(RENDER, new(5)), one_place(MUTATE_COND, new(5))])
    return job


# 512 identifiers and 64 functions, links to many of them, own function the last.
# The greatest tables, with identifiers and numbers at their ends.
def largest_tables(rng):
    job = Job(options=rng.choice([1, 3]), next=511)
    job.plain(510)
    ids = [0, any_ident(job, rng), any_ident(job, rng)]
    for n in (1, 510, OWN, OWN + 510, OWN + 511):
        job.value(n, rng.choice([MUTABLE, CONTEXT, FROZEN]), any_reasons(rng))
    job.points(0, [1, 510]), job.points(511, [OWN + 511, 510])
    for _ in range(64):
        job.function(job.run([(rng.choice(ids), E_CAPTURE)]))
    for n in (1, 2, 255, 510):
        job.link(n, rng.randrange(64))
    job.instruction(job.place(511), any_list(job, rng, ids, 5, usable_codes(job)), 63)
    job.instruction(job.place(510), any_list(job, rng, ids, 5, usable_codes(job)), 63)
    return job


# ------------------------------------------------- assign and own numbers


# Assign and the lvalue step over undefined places, with and without an entry at 512 + i.
# Assign keeps such an entry, the lvalue step overwrites it.
def own_numbers(rng):
    job = Job(options=rng.randrange(4))
    ids = [any_ident(job, rng) for _ in range(rng.randrange(2, 4))]
    for i in ids:
        if rng.random() < 0.6:
            job.value(OWN + i, rng.randrange(6), any_reasons(rng))
        if rng.random() < 0.3:
            job.points(i, [OWN + rng.choice(ids)])
    session_some(job, rng, ids)
    for _ in range(rng.randrange(1, 4)):
        a, b = rng.choice(ids), rng.choice(ids)
        some = [flow(rng.choice([ASSIGN, ASSIGN, CREATE_FROM, CAPTURE]),
                     any_place(job, rng, a), any_place(job, rng, b))]
        job.instruction(any_place(job, rng, rng.choice(ids)), some)
    job.instruction(any_place(job, rng, rng.choice(ids)), [])
    return job


# First access: which steps record it, with which span, and only once.
# Every code that reads a kind, over undefined places.
def first_access(rng):
    job = Job(options=rng.randrange(4))
    ids = [any_ident(job, rng, refs=0.2) for _ in range(3)]
    shape(job, rng, ids[0], rng.choice(SHAPES))
    any_function(job, rng, ids, 3)
    if rng.random() < 0.2:
        job.undefined(rng.choice(ids), any_span(rng))
    codes = [FREEZE, MUTATE, MUTATE_COND, CAPTURE, MAYBE_ALIAS, ASSIGN, CREATE_FROM,
             IMMUTABLE_CAPTURE, CREATE_FUNCTION]
    for _ in range(rng.randrange(1, 3)):
        some = any_list(job, rng, ids, rng.randrange(1, 4), codes)
        job.instruction(any_place(job, rng, ids[0]), some, rng.choice([None, 0]))
    return job


# 64 candidates in each of three instructions: mutations, flows, and a few that make something.
# Case 16 over one context.
def most_candidates(rng):
    job = Job(options=rng.randrange(4))
    ids = [any_ident(job, rng, refs=0.1) for _ in range(rng.randrange(4, 9))]
    for i in ids:
        shape(job, rng, i, rng.choice(SHAPES))
    codes = list(MUTATIONS) + [CAPTURE, MAYBE_ALIAS, IMMUTABLE_CAPTURE, RENDER, FREEZE]
    for _ in range(3):
        job.instruction(any_place(job, rng, ids[0]), any_list(job, rng, ids, 64, codes))
    return job


# 32 early MutateFrozen of the own function, then 64 functions of 16 captures each: 32 + 64 * 17 effects.
# "The output list has 1,120 records (32 + 64 x 17, so it suffices)."
def most_effects(rng):
    job = Job(next=1)
    into, mutable, frozen = job.plain(64), job.plain(16), job.plain(16)
    for i in mutable:
        job.holds(i, MUTABLE)
    for i in frozen:
        job.holds(i, FROZEN, 1 << R_STATE)
    inside = [(frozen[k % 16], 0, 0, (k, k + 1)) for k in range(32)]
    own = job.function(job.run([(i, E_CAPTURE) for i in frozen]), job.run(inside), 1)
    plain = job.function(job.run([(mutable[0], E_CAPTURE)]))
    captures = job.run([(i, E_CAPTURE, 0, (i, i + 9)) for i in mutable])
    candidates = [create_function(job.place(i), plain, captures) for i in into]
    job.instruction(job.place(into[0]), candidates, own)
    job.instruction(job.place(into[1]), candidates, own)
    return job


# The greatest instructions, as a list of its own (`large_jobs.bin`).
# They came after the other lists were recorded.
GREATEST = [
    ("64 candidates", most_candidates), ("64 candidates, another", most_candidates),
    ("64 candidates, a third", most_candidates), ("1,120 effects", most_effects),
]


# Weight, tag, profile: the random ones that `generate.py` mixes by seed.
# Large ones are rare, for size.
RANDOM = [
    (24, "random job", random_job), (8, "rerun", rerun), (10, "shared key", shared_key),
    (3, "equal records", equal_records), (7, "early MutateFrozen", early_job),
    (8, "codes 14 to 16", diagnosed_job), (2, "made then named", made_then_named),
    (10, "walk random", walk_random_job), (5, "link then freeze", link_then_freeze),
    (2, "nested walk", nested_small), (3, "function keys", function_keys),
    (3, "top order", top_order), (1, "relink", relink), (5, "numbers run out", numbers_job),
    (5, "own numbers", own_numbers), (6, "first access", first_access),
    (0.3, "diagnostics limit", diagnostics_limit), (0.2, "chain", chain_job),
]

# The handful of large or exact ones, each by name.
# (k + 1) * (n + 1) + extra entries: 64 * 64 = 4,096.
GIANTS = [
    ("case 18 endless", lambda rng: case_18(rng, True, 1)),
    ("case 18 endless, other option", lambda rng: case_18(rng, True, 2)),
    ("case 18 ending", lambda rng: case_18(rng, False, 1)),
    ("case 18 ending, other option", lambda rng: case_18(rng, False, 2)),
    ("case 18 without option", lambda rng: case_18(rng, True, 0)),
    ("walk of 4,096 entries", lambda rng: nested_job(rng, [(63, 63)])),
    ("walk of 4,097 entries", lambda rng: nested_job(rng, [(63, 63, 1)])),
    ("walk of 4,095 entries", lambda rng: nested_job(rng, [(62, 64)])),
    ("walk of 4,096 entries, deeper", lambda rng: nested_job(rng, [(127, 31)])),
    ("two walks of 2,304 entries", lambda rng: nested_job(rng, [(47, 47), (47, 47)])),
    ("walk of 4,097 entries behind one", lambda rng: nested_job(rng, [(3, 3), (63, 63, 1)])),
    ("relinked number", lambda rng: relink(random.Random(1))),
    ("order of the frozen values", lambda rng: top_order(random.Random(3))),
    ("512 identifiers, 64 functions", largest_tables),
    ("256 identities", identities_limit),
    ("early MutateFrozen at 255 diagnostics", early_limit),
    ("255 diagnostics", lambda rng: diagnostics_limit(rng, 255)),
    ("256 diagnostics", lambda rng: diagnostics_limit(rng, 256)),
    ("2,047 interned", lambda rng: interned_limit(rng, 2047, 255, 512)),
    ("2,048 interned", lambda rng: interned_limit(rng, 2048, 256, 511)),
]

EXHAUSTIVE = [(sentence_cases, sentence_job), (label_cases, label_job)]


# All cases of the exhaustive spaces as (tag, build, case).
# The list does not depend on a seed, only the build's details do.
def all_cases():
    return [(" ".join(str(part) for part in case), build, case)
            for cases, build in EXHAUSTIVE for case in cases()]
