"""Random candidates over a world, by name of their effect."""

from names import *
from shapes import any_place, any_run, any_span
from world import *


# A run of captured places.
# Mostly short, with repeats; at times over places that stand already.
def any_captures(world, rng, ids, most=4):
    if rng.random() < 0.2:
        return any_run(world, rng, most)
    return world.run([(rng.choice(ids), rng.randrange(8), rng.randrange(2), any_span(rng))
                      for _ in range(rng.randrange(most + 1))])


# One candidate of a code over the given identifiers; the destination may be fixed.
# Diagnosed codes need a job with a table; the caller leaves them out otherwise.
def any_candidate(world, rng, ids, code, into=None):
    place = lambda i=None: any_place(world, rng, rng.choice(ids) if i is None else i)
    if code == FREEZE:
        return freeze(place(), rng.randrange(12))
    if code == MUTATE:
        return mutate(place(), rng.randrange(2))
    if code in ONE_PLACE:
        return one_place(code, place())
    if code in FLOWS:
        return flow(code, place(), place(into))
    if code == CREATE:
        return create(place(into), rng.randrange(6), rng.randrange(12))
    if code == CREATE_FUNCTION:
        run = any_captures(world, rng, ids)
        return create_function(place(into), rng.randrange(len(world.functions)), run)
    return diagnosed(code, place(), rng.randrange(len(world.diagnostics)))


# A list of candidates that mostly avoids refusals 6 and 7.
# Destinations of Create and its kin are drawn without repeats nine times in ten.
def any_list(world, rng, ids, count, codes):
    free, made, out = list(ids), [], []
    rng.shuffle(free)
    for _ in range(count):
        code = rng.choice(codes)
        into = None
        if code in (CREATE, CREATE_FROM, CREATE_FUNCTION, ASSIGN) and rng.random() < 0.93:
            if not free:
                continue
            into = free.pop()
            made.append(into)
        if code == ALIAS and rng.random() < 0.9:
            if not made:
                continue
            into = rng.choice(made)
        out.append(any_candidate(world, rng, ids, code, into))
    return out


# The codes that a random list may use in a world.
# CreateFunction needs a function, the diagnosed codes a diagnostics table.
def usable_codes(world, with_diagnosed=False):
    codes = [c for c in range(18) if c != APPLY and c not in DIAGNOSED]
    if not world.functions:
        codes.remove(CREATE_FUNCTION)
    if with_diagnosed and world.diagnostics:
        codes += list(DIAGNOSED)
    return codes
