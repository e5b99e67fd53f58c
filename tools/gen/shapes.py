"""Shapes of places and random pieces that all profiles share."""

from names import *

# What a place can be before an instruction; the last two join several values.
SHAPES = ["undefined", "empty", "entryless", "Mutable", "Frozen", "Primitive",
          "MaybeFrozen", "Global", "Context", "joined", "partly"]

# A small pool, so that equal and different spans both happen often.
# 0,0 and an end below the start are real spans; so is FFFFFFFF once.
SPANS = [NO_SPAN, (10, 12), (20, 25), (10, 25), (0, 0), (5, 3), (NO, 7), (7, NO)]


# A span from the pool.
# Spans matter for diagnostics, the first access and interned places.
def any_span(rng):
    return rng.choice(SPANS)


# A set of reasons: mostly one, at times none or several.
# Empty and large sets are allowed and rarely tried by hand.
def any_reasons(rng):
    pick = rng.random()
    if pick < 0.6:
        return 1 << rng.randrange(12)
    if pick < 0.7:
        return 0
    return rng.randrange(0x1000)


# Gives an identifier one of the shapes, with fresh values of the world.
# `entryless` has values without entries, `joined` two kinds, `partly` one with and one without.
def shape(world, rng, identifier, name, reasons=None):
    pick = lambda: any_reasons(rng) if reasons is None else reasons
    if name == "undefined":
        world.sets.pop(identifier, None)
    elif name == "empty":
        world.points(identifier, [])
    elif name == "entryless":
        world.points(identifier, [world.fresh() for _ in range(rng.randrange(1, 3))])
    elif name == "joined":
        world.points(identifier, [world.value(world.fresh(), rng.randrange(6), pick())
                                  for _ in range(rng.randrange(2, 4))])
    elif name == "partly":
        world.points(identifier, [world.fresh(),
                                  world.value(world.fresh(), rng.randrange(6), pick())])
    else:
        world.holds(identifier, KIND_NAMES.index(name), pick())


# An identifier with random flags, access and name.
# Names are few, so they are shared often.
def any_ident(world, rng, refs=0.12, hoisted=0.25):
    access = any_span(rng) if rng.random() < hoisted else None
    return world.ident(rng.random() < refs, access, rng.choice([0, 0, 1, 2, 3, 512]))


# A place of an identifier with random Effect, reactive and span.
# The same identifier so gets places that differ in all else.
def any_place(world, rng, identifier):
    return world.place(identifier, rng.randrange(8), rng.randrange(2), any_span(rng))


# Fills a world with identifiers of random shapes.
# Some share values, and some values are in no set.
def any_state(world, rng, count):
    ids = [any_ident(world, rng) for _ in range(count)]
    for i in ids:
        shape(world, rng, i, rng.choice(SHAPES))
    numbers = list(range(1, world.next)) + [OWN + i for i in ids]
    for _ in range(rng.randrange(3)):
        world.points(rng.choice(ids), rng.sample(numbers, min(len(numbers), rng.randrange(1, 4))))
    for _ in range(rng.randrange(2)):
        world.value(rng.choice(numbers), rng.randrange(6), any_reasons(rng))
    return ids


# A run over places that stand already, such as another function's context.
# Runs may overlap; nothing that is done to one may show in the other.
def any_run(world, rng, most):
    if not world.places or rng.random() < 0.1:
        return (0, 0)
    first = rng.randrange(len(world.places))
    return (first, rng.randrange(1, min(most, len(world.places) - first) + 1))


# Adds a function with random context and places mutated inside.
# Mutated places are in the context mostly, and at times repeated or foreign.
# One in four takes its context from places that stand already: each has its own copy of them.
def any_function(world, rng, ids, most=4):
    if rng.random() < 0.25 and world.functions:
        return world.function(any_run(world, rng, most), flags=rng.choice([0, KNOWN | TRACKED]))
    tuples = lambda pool, n: [(rng.choice(pool), rng.choice([E_CAPTURE, E_CAPTURE, rng.randrange(8)]),
                               rng.randrange(2), any_span(rng)) for _ in range(n)]
    context = tuples(ids, rng.randrange(most + 1))
    flags = rng.choice([0, KNOWN, KNOWN, KNOWN | TRACKED])
    mutated = []
    if flags & KNOWN:
        pool = [c[0] for c in context] * 3 + ids
        mutated = tuples(pool, rng.randrange(most))
    return world.function(world.run(context), world.run(mutated), flags)
