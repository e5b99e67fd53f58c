"""Profiles of job images. Each returns an Image and says by its tag what it aims at."""

from candidates import *
from image import Image
from names import *
from shapes import *
from world import *

# --------------------------------------------------- small ones, exhaustively

# Hoisted or not, with which access span; the place's own span is (10, 12).
HOISTS = {"plain": None, "no access": NO_SPAN, "same span": (10, 12), "other span": (20, 25)}


# Every flow × source shape × destination shape, from one identifier into another.
# Alias is refused with 7 here, which is one of its branches.
def flow_cases():
    return [("flow", code, a, b) for code in FLOWS for a in SHAPES for b in SHAPES]


# Builds one flow case.
# Options and reasons come from the seed; they do not matter for the branch.
def flow_image(rng, case):
    _, code, a, b = case
    im = Image(options=rng.randrange(4))
    source, into = any_ident(im, rng), any_ident(im, rng)
    shape(im, rng, source, a)
    shape(im, rng, into, b)
    im.add(flow(code, any_place(im, rng, source), any_place(im, rng, into)))
    im.lvalue = rng.randrange(2)
    return im


# Flows whose destination was made in the same instruction, by each way of making it.
# Only so can Alias get past refusal 7.
def made_cases():
    ways = ["Create %d" % k for k in range(6)] + ["CreateFrom", "Assign", "CreateFunction"]
    return [("made", code, way, a) for code in (CAPTURE, ALIAS, MAYBE_ALIAS, IMMUTABLE_CAPTURE)
            for way in ways for a in SHAPES]


# Builds one such case.
# The made place takes its kind from the way it is made, or from a second source.
def made_image(rng, case):
    _, code, way, a = case
    im = Image(options=rng.randrange(4))
    source, into, third = (any_ident(im, rng) for _ in range(3))
    shape(im, rng, source, a)
    shape(im, rng, third, rng.choice(SHAPES))
    place = lambda i: any_place(im, rng, i)
    if way.startswith("Create "):
        im.add(create(place(into), int(way[7:]), rng.randrange(12)))
    elif way == "CreateFunction":
        im.function(flags=rng.choice([0, KNOWN | TRACKED]))
        im.add(create_function(place(into), 0))
    else:
        im.add(flow(CREATE_FROM if way == "CreateFrom" else ASSIGN, place(third), place(into)))
    im.add(flow(code, place(source), place(into)))
    return im


# A flow from an identifier into itself, each code and shape.
# Source and destination are then read from the same entry.
def self_cases():
    return [("self", code, a) for code in FLOWS for a in SHAPES]


# Builds one such case, with a second look at the place afterwards.
# The Mutate behind it shows what the place has become.
def self_image(rng, case):
    _, code, a = case
    im = Image(options=rng.randrange(4))
    i = any_ident(im, rng)
    shape(im, rng, i, a)
    im.add(flow(code, any_place(im, rng, i), any_place(im, rng, i)))
    im.add(one_place(MUTATE_TRANS, any_place(im, rng, i)))
    return im


# Every mutation × shape × ref × hoisted form.
# The kinds decide between the emitted codes, the hoisted form between the messages.
def mutation_cases():
    return [("mutation", code, a, ref, h) for code in MUTATIONS for a in SHAPES
            for ref in (False, True) for h in HOISTS]


# Builds one mutation case.
# The same mutation comes twice, the second time with another span.
def mutation_image(rng, case):
    _, code, a, ref, h = case
    im = Image(options=rng.randrange(4))
    i = im.ident(ref, HOISTS[h], rng.choice([0, 1]))
    shape(im, rng, i, a)
    for span in ((10, 12), rng.choice(SPANS)):
        place = im.place(i, rng.randrange(8), 0, span)
        im.add(mutate(place, rng.randrange(2)) if code == MUTATE else one_place(code, place))
    return im


# Freeze of every shape under every option word.
# A Freeze that does not act is not listed.
def freeze_cases():
    return [("freeze", a, options) for a in SHAPES for options in range(4)]


# Builds one freeze case.
# A Mutate behind it shows the reason through its diagnostic.
def freeze_image(rng, case):
    _, a, options = case
    im = Image(options=options)
    i = any_ident(im, rng)
    shape(im, rng, i, a)
    im.add(freeze(any_place(im, rng, i), rng.randrange(12)))
    if rng.random() < 0.5:
        im.add(mutate(any_place(im, rng, i)))
    return im


# Create of every kind with every reason.
# Into the lvalue or beside it.
def create_cases():
    return [("create", kind, reason) for kind in range(6) for reason in range(12)]


# Builds one create case, followed by another effect on the made place.
# The made kind decides what that effect does.
def create_image(rng, case):
    _, kind, reason = case
    im = Image(next=rng.choice([1, 1, 30, 31, 32, 63, 64, 510]))
    a, b = any_ident(im, rng), any_ident(im, rng)
    im.add(create(any_place(im, rng, a), kind, reason))
    follow = rng.randrange(4)
    place = lambda i: any_place(im, rng, i)
    if follow == 0:
        im.add(mutate(place(a)))
    elif follow == 1:
        im.add(flow(rng.choice([ASSIGN, CREATE_FROM]), place(a), place(b)))
    elif follow == 2:
        im.add(freeze(place(a), rng.randrange(12)))
    im.lvalue = rng.randrange(len(im.places))
    return im


# CreateFunction: capture shape × function flags × Effect in the context × ref there.
# These decide if the function is Mutable and if Capture becomes Read.
def function_cases():
    return [("function", a, flags, effect, ref) for a in SHAPES for flags in (0, 1, 3)
            for effect in (E_CAPTURE, E_READ) for ref in (False, True)]


# Builds one such case.
# Captures may be none, the context's place, or another.
def function_image(rng, case):
    _, a, flags, effect, ref = case
    im = Image(options=rng.randrange(4))
    held, into = im.ident(ref, None, 1), any_ident(im, rng)
    shape(im, rng, held, a)
    f = im.function(im.run([(held, effect, 0, any_span(rng))]), flags=flags)
    captures = im.run([(held, E_CAPTURE)] * rng.choice([0, 1, 1, 2]))
    im.add(create_function(any_place(im, rng, into), f, captures))
    if rng.random() < 0.5:
        im.add(freeze(any_place(im, rng, into), rng.randrange(12)))
    return im


# The instruction's own function: shape × inside its context or not × known × hoisted.
# Only Frozen, defined and in the context gives the early MutateFrozen.
def own_cases():
    shapes = SHAPES + ["Frozen", "Frozen", "joined"]
    return [("own", a, inside, h) for a in shapes for inside in (False, True) for h in HOISTS]


# Builds one such case, with repeated places and a mutation by a candidate as well.
# The early effect is not interned, the later one is.
def own_image(rng, case):
    _, a, inside, h = case
    im = Image(options=rng.randrange(4))
    i, other = im.ident(False, HOISTS[h], 2), any_ident(im, rng)
    shape(im, rng, i, a)
    context = im.run([(i if inside else other, E_CAPTURE, 0, any_span(rng))])
    mutated = im.run([(i, rng.randrange(8), 0, s) for s in ((10, 12), rng.choice(SPANS))] +
                     [(other, E_MUTATE, 0, (10, 12))] * rng.randrange(2))
    im.own = im.function(context, mutated, rng.choice([KNOWN, KNOWN | TRACKED]))
    if rng.random() < 0.7:
        im.add(mutate(im.place(i, 0, 0, rng.choice(SPANS))))
    im.lvalue = im.place(other)
    return im


EXHAUSTIVE = [
    (flow_cases, flow_image), (made_cases, made_image), (self_cases, self_image),
    (mutation_cases, mutation_image), (freeze_cases, freeze_image),
    (create_cases, create_image), (function_cases, function_image), (own_cases, own_image),
]

# ------------------------------------------------------------- random ones


# Any small image: 2 to 6 identifiers, up to 3 functions, up to 7 candidates.
# It mixes what the exhaustive ones keep apart.
def random_small(rng):
    im = Image(options=rng.randrange(4))
    ids = any_state(im, rng, rng.randrange(1, 6))
    im.next = min(512, im.next + rng.choice([0, 0, 1, 5]))
    for _ in range(rng.randrange(4)):
        any_function(im, rng, ids)
    im.add(*any_list(im, rng, ids, rng.randrange(1, 8), usable_codes(im)))
    if im.functions and rng.random() < 0.4:
        im.own = rng.randrange(len(im.functions))
    im.lvalue = any_place(im, rng, rng.choice(ids))
    return im


# Many candidates over few identifiers, so that keys repeat with other places.
# The first effect under a key is used ever after.
def random_shared(rng):
    im = Image(options=rng.randrange(4))
    ids = any_state(im, rng, rng.randrange(1, 4))
    codes = list(MUTATIONS) * 2 + [FREEZE, CAPTURE, MAYBE_ALIAS, IMMUTABLE_CAPTURE, RENDER]
    im.add(*any_list(im, rng, ids, rng.randrange(6, 20), codes))
    im.lvalue = any_place(im, rng, rng.choice(ids))
    return im


# Diagnostics of few identifiers: shared identities, other spans, hoisted or not.
# The listing shows the instance numbers.
def random_diagnostics(rng):
    im = Image()
    ids = [any_ident(im, rng, refs=0.05, hoisted=0.5) for _ in range(rng.randrange(1, 4))]
    for i in ids:
        shape(im, rng, i, rng.choice(["Frozen", "MaybeFrozen", "Global", "joined"]))
    for _ in range(rng.randrange(3, 10)):
        place = any_place(im, rng, rng.choice(ids))
        im.add(rng.choice([mutate(place), one_place(MUTATE_TRANS, place),
                           freeze(place, rng.randrange(12))]))
    if rng.random() < 0.5:
        im.own = any_function(im, rng, ids)
    im.lvalue = any_place(im, rng, rng.choice(ids))
    return im


# Create twice, Assign after CreateFunction and the like, and Alias too early.
# Refusals 6 and 7 at a random candidate, with 6 before 9.
def refused_six_seven(rng):
    im = Image(next=rng.choice([1, 509, 510, 511, 512]))
    ids = im.plain(rng.randrange(2, 4))
    im.function()
    makers = [CREATE, CREATE_FROM, CREATE_FUNCTION, ASSIGN]
    for i in ids:
        if rng.random() < 0.6:
            im.points(i, [im.value(OWN + i, rng.randrange(6), any_reasons(rng))])
    order = [rng.choice(makers) for _ in range(rng.randrange(2, 5))]
    if rng.random() < 0.4:
        order.insert(rng.randrange(len(order)), ALIAS)
    pool = ids[:rng.randrange(1, len(ids) + 1)]
    im.add(*[any_candidate(im, rng, ids, code, rng.choice(pool)) for code in order])
    im.lvalue = any_place(im, rng, rng.choice(ids))
    return im


# Next at 510, 511 or 512 and candidates that need numbers by each way.
# Refusal 9 after the last number is used up; Assign of Mutable needs none.
def numbers_run_out(rng):
    im = Image(next=rng.choice([509, 510, 511, 511, 512, 512]), options=rng.randrange(4))
    ids = [any_ident(im, rng) for _ in range(rng.randrange(2, 6))]
    for i in ids:
        pick = rng.random()
        if pick < 0.75:
            im.points(i, [im.value(rng.choice([OWN + i, im.next - 1]), rng.randrange(6), any_reasons(rng))])
    im.function(flags=rng.choice([0, KNOWN | TRACKED]))
    codes = [CREATE, CREATE_FROM, CREATE_FUNCTION, ASSIGN, ASSIGN, MUTATE, FREEZE]
    im.add(*any_list(im, rng, ids, rng.randrange(1, 6), codes))
    im.lvalue = any_place(im, rng, rng.choice(ids))
    return im


# Value numbers at the edges of words and ranges.
# 31/32, 63/64, 510/511, and own numbers 512 + i of a few identifiers.
def edge_numbers(rng):
    im = Image(next=512, options=rng.randrange(4))
    ids = im.plain(rng.randrange(2, 5))
    numbers = [1, 31, 32, 33, 63, 64, 65, 127, 128, 255, 256, 510, 511] + [OWN + i for i in ids]
    for n in rng.sample(numbers, rng.randrange(3, len(numbers))):
        im.value(n, rng.randrange(6), any_reasons(rng))
    for i in ids:
        if rng.random() < 0.85:
            im.points(i, rng.sample(numbers, rng.randrange(0, 6)))
    codes = [FREEZE, ASSIGN, CAPTURE, MAYBE_ALIAS, MUTATE, MUTATE_TRANS_COND, IMMUTABLE_CAPTURE]
    im.add(*any_list(im, rng, ids, rng.randrange(1, 5), codes))
    im.lvalue = any_place(im, rng, rng.choice(ids))
    return im


# Functions made in this instruction, held by each other's contexts, then frozen.
# With an option on, the walk goes through them: chains, cycles, repeats.
def walk_random(rng):
    im = Image(options=rng.choice([0, 1, 2, 3, 3]))
    ids = any_state(im, rng, rng.randrange(2, 5))
    holders = [im.ident(name=1) for _ in range(rng.randrange(1, 5))]
    for _ in holders:
        context = [(rng.choice(holders + ids), rng.choice([E_CAPTURE, E_READ]))
                   for _ in range(rng.randrange(0, 5))]
        im.function(im.run(context), flags=rng.choice([0, 3, 3, 3]))
    for f, h in enumerate(holders):
        im.add(create_function(im.place(h), f, any_captures(im, rng, ids, 2)))
    if rng.random() < 0.4:
        im.add(flow(ASSIGN, im.place(rng.choice(holders)), im.place(ids[0])))
    for _ in range(rng.randrange(1, 4)):
        im.add(freeze(im.place(rng.choice(holders + ids)), rng.randrange(12)))
    if rng.random() < 0.5:
        im.add(mutate(im.place(rng.choice(ids), 0, 0, any_span(rng))))
    return im


# A chain of functions, each holding the next in its context.
# At most 63 can be made beside the Freeze in one list.
def walk_chain(rng, length=None):
    n = length or rng.randrange(2, 20)
    im = Image(options=rng.choice([1, 2, 3]))
    ids = im.plain(n + 1)
    for k in range(n):
        im.function(im.run([(ids[k + 1], E_CAPTURE)]), flags=3)
    shape(im, rng, ids[n], rng.choice(["Mutable", "Context", "MaybeFrozen", "undefined", "empty"]))
    for k in range(n):
        im.add(create_function(im.place(ids[k]), k))
    im.add(freeze(im.place(ids[0]), rng.randrange(12)))
    return im


# ------------------------------------------------------------ near the limits


# 512 identifiers; the last ones are used, with value 1023.
# One value number per identifier would be too large a listing, so few are defined.
def limit_identifiers(rng):
    im = Image(options=rng.randrange(4), next=512)
    im.plain(509)
    ids = [0, 255] + [any_ident(im, rng) for _ in range(3)]
    for i in ids:
        im.value(OWN + i, rng.randrange(6), any_reasons(rng))
        if rng.random() < 0.7:
            im.points(i, rng.sample([1, 511, OWN, OWN + 511, OWN + i], 3))
    im.value(511, rng.randrange(6), any_reasons(rng))
    im.add(*any_list(im, rng, ids, 6, [ASSIGN, CAPTURE, MAYBE_ALIAS, FREEZE, MUTATE, ALIAS]))
    im.lvalue = im.place(511)
    return im


# One identifier only, with every effect that can act on it.
# The least number of identifiers.
def limit_one_identifier(rng):
    im = Image(options=rng.randrange(4), next=rng.choice([1, 2, 511]))
    i = any_ident(im, rng)
    if im.next < 500:
        shape(im, rng, i, rng.choice(SHAPES))
    else:
        im.points(i, [510, OWN])
    im.function(im.run([(i, E_CAPTURE)]), flags=3)
    im.add(*any_list(im, rng, [i], rng.randrange(1, 5), usable_codes(im)))
    im.lvalue = im.place(i)
    return im


# 64 functions, the last with 16 context places and 32 mutated inside, as own function.
# All three limits exactly met.
def limit_functions(rng):
    im = Image(options=rng.randrange(4))
    ids = any_state(im, rng, 4)
    shape(im, rng, ids[0], "Frozen")
    for _ in range(63):
        im.function()
    pick = lambda: (rng.choice(ids), rng.randrange(8), 0, any_span(rng))
    im.own = im.function(im.run([pick() for _ in range(16)]), im.run([pick() for _ in range(32)]), 3)
    im.add(create_function(im.place(ids[1]), 63, im.run([pick() for _ in range(16)])))
    im.lvalue = im.place(ids[2])
    return im


# 64 candidates: mutations, flows and a few that make something.
# Case 16, the greatest accepted list.
def limit_candidates(rng):
    im = Image(options=rng.randrange(4))
    ids = any_state(im, rng, rng.randrange(3, 8))
    codes = list(MUTATIONS) + [CAPTURE, MAYBE_ALIAS, IMMUTABLE_CAPTURE, RENDER, FREEZE]
    while len(im.candidates) < 64:
        im.add(any_candidate(im, rng, ids, rng.choice(codes)))
    im.lvalue = im.place(ids[0])
    return im


# Functions with 16 captures of all kinds of places.
# Each capture goes through the same step as a candidate.
def limit_captures(rng):
    im = Image(options=rng.randrange(4))
    ids = any_state(im, rng, rng.randrange(3, 7))
    im.function(im.run([(i, E_CAPTURE) for i in ids]), flags=rng.choice([0, 1, 3]))
    into = im.ident()
    run = im.run([(rng.choice(ids), rng.randrange(8), 0, any_span(rng)) for _ in range(16)])
    im.add(create_function(im.place(into), 0, run), freeze(im.place(into), R_JSX))
    im.lvalue = im.place(into)
    return im


# A walk with a set number of entries: a function over 15 large sets that share values.
# Each set has one Mutable value of its own, so each is gone through whole.
def walk_exact(rng, entries, freezes=1):
    im = Image(options=rng.choice([1, 2, 3]))
    size = (entries - 1) // 15
    extra = entries - 1 - 15 * size
    tops = im.plain(freezes)
    common = [im.fresh() for _ in range(size - 1)]
    for n in common[:3]:
        im.value(n, MUTABLE, 0)
    for top in tops:
        held = im.plain(16 if extra else 15)
        for i in held[:15]:
            im.points(i, common + [im.value(im.fresh(), rng.choice([MUTABLE, CONTEXT]), 0)])
        if extra:
            im.points(held[15], [im.value(im.fresh(), MUTABLE, 0) for _ in range(extra)])
        im.function(im.run([(i, E_READ) for i in held]), flags=3)
        im.add(create_function(im.place(top), len(im.functions) - 1))
    for top in tops:
        im.add(freeze(im.place(top), rng.randrange(12)))
    return im


# Every word at the upper end of its range, every run ending at the last place.
# One step further each of them would be refused with 3 (see damage.py).
def edge_words(rng):
    im = Image(options=3, next=512)
    for access in ((0, 0), NO_SPAN, (NO, 0)):
        im.ident(True, access, 512)
    im.plain(2)
    im.value(1, FROZEN, 0xFFF), im.value(511, CONTEXT, 1 << R_OTHER), im.value(OWN + 4, FROZEN, 0)
    im.points(3, [1]), im.points(4, [511, OWN + 4]), im.points(0, [])
    im.place(3, E_STORE, 1, (NO, 0)), im.place(4, E_STORE, 1, (0, 0))
    for run in ((0, 0), (1, 1)):
        im.function(run, (0, 2), KNOWN | TRACKED)
    im.function((0, 2), (1, 1), KNOWN)
    im.lvalue, im.own = 1, 2
    im.add(freeze(1, R_OTHER), mutate(0, 1), create_function(1, 2, (0, 2)), create_function(0, 1, (1, 1)))
    return im


# An image of exactly 65,536 bytes, filled up with places.
# The longest that is accepted.
def longest(rng):
    im = Image()
    while len(im.words()) % 5 != 16384 % 5:
        im.ident()
    for k in range((16384 - len(im.words())) // 5):
        im.place(k % len(im.identifiers), k % 8, k % 2, (k, k + 1))
    im.lvalue = len(im.places) - 1
    return im


# The shortest accepted image: one identifier and one place.
# Only the lvalue step happens.
def shortest(rng):
    im = Image(options=3, next=512)
    im.place(im.ident(True, (1, 2), 512), E_STORE, 1)
    return im


# Weight, tag, profile: the random ones that `generate.py` mixes by seed.
# Large ones are rare, for size.
RANDOM = [
    (30, "random small", random_small), (8, "shared keys", random_shared),
    (10, "diagnostics", random_diagnostics), (8, "refusals 6 and 7", refused_six_seven),
    (8, "numbers run out", numbers_run_out), (8, "edge numbers", edge_numbers),
    (12, "walk random", walk_random), (4, "walk chain", walk_chain),
    (3, "one identifier", limit_one_identifier), (2, "16 captures", limit_captures),
    (1, "64 candidates", limit_candidates), (0.4, "64 functions", limit_functions),
    (0.3, "512 identifiers", limit_identifiers),
]

# The handful of giants: each once, by name.
# Exactly 4,096 entries, 4,097, and two Freezes that pass 4,096 only together.
GIANTS = [
    ("walk of 4,096 entries", lambda rng: walk_exact(rng, 4096)),
    ("walk of 4,097 entries", lambda rng: walk_exact(rng, 4097)),
    ("two walks of 2,101 entries", lambda rng: walk_exact(rng, 2101, 2)),
    ("chain of 63 functions", lambda rng: walk_chain(rng, 63)),
    ("64 functions", limit_functions), ("64 candidates", limit_candidates),
    ("512 identifiers", limit_identifiers), ("16 captures", limit_captures),
    ("all words at their edge", edge_words), ("65,536 bytes", longest), ("104 bytes", shortest),
]


# All cases of the exhaustive spaces as (tag, build).
# The list does not depend on a seed, only the build's details do.
def all_cases():
    out = []
    for cases, build in EXHAUSTIVE:
        for case in cases():
            out.append((" ".join(str(part) for part in case), build, case))
    return out


# Case 1 of document 01 and the other cases that an image can show.
# They stand at the head of the recorded list.
def paper_cases():
    out = []
    one = Image()
    one.plain(2), one.place(0), one.place(1)
    one.add(create(0, FROZEN, R_STATE), flow(ASSIGN, 0, 1))
    one.lvalue = 1
    out.append(("case 1", one))
    for kind, hoisted in ((MAYBE_FROZEN, None), (MAYBE_FROZEN, NO_SPAN)):
        im = Image()
        im.ident(access=hoisted)
        im.holds(0, kind)
        im.add(mutate(im.place(0)))
        out.append(("case 10", im))
    im = Image()
    im.ident()
    im.add(create(im.place(0), MUTABLE, R_OTHER), create(im.place(0), MUTABLE, R_OTHER))
    out.append(("case 11", im))
    for code in (ALIAS, CAPTURE):
        im = Image()
        im.plain(2)
        im.holds(0, MUTABLE), im.holds(1, MUTABLE)
        im.add(flow(code, im.place(0), im.place(1)))
        out.append(("case 12", im))
    for code in (MAYBE_ALIAS, CAPTURE):
        im = Image()
        im.plain(2)
        im.holds(0, PRIMITIVE), im.holds(1, MUTABLE)
        im.add(flow(code, im.place(0), im.place(1)))
        out.append(("case 13", im))
    im = Image()
    im.place(im.ident())
    out.append(("case 15", im))
    for twice in (1, 2):
        im = Image(next=511)
        for i in im.plain(twice):
            im.add(create(im.place(i), MUTABLE, R_OTHER))
        out.append(("case 17", im))
    return out
