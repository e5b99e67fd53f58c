"""Valid images at edges that the profiles of tools/gen don't reach: refusal 8, 1,120 effects, long listings.

    EDGES     (tag, build) pairs; build(rng) gives an Image of tools/gen
"""

import os
import sys

sys.path.insert(0, os.path.join(os.path.dirname(os.path.abspath(__file__)), "..", "gen"))

from image import Image
from names import *
from shapes import any_reasons, any_span, shape
from world import create_function, flow, freeze, one_place


# Keys around the 2,048th: CreateFunctions whose captures each give a Capture and, if Frozen or Context, one
# derived effect more. The number of keys is drawn from a few on either side of the limit.
def many_keys(rng):
    wanted = rng.choice([2030, 2047, 2048, 2048, 2049, 2049, 2050, 2112])
    im = Image(options=rng.randrange(4))
    doubled, single = im.plain(16), im.plain(16)
    for i in doubled:
        shape(im, rng, i, rng.choice(["Frozen", "Context", "MaybeFrozen"]))
    for i in single:
        shape(im, rng, i, rng.choice(["Mutable", "Mutable", "undefined", "Primitive"]))
    place = lambda i: (i, rng.randrange(8), rng.randrange(2), any_span(rng))
    first, _ = im.run([place(i) for i in doubled + single])
    im.function(flags=KNOWN | TRACKED)
    keys = 0
    for i in im.plain(64):
        left = wanted - keys
        if left <= 0:
            break
        twos = min(16, (left - 1) // 2)
        ones = min(16 - twos, left - 1 - 2 * twos)
        im.add(create_function(im.place(i), 0, (first + 16 - twos, twos + ones)))
        keys += 1 + 2 * twos + ones
    return im


# As many effects as can be listed, or a few less: 32 early ones, and 64 functions with 16 captures each.
# The output list has 1,120 records.
def many_effects(rng):
    im = Image(options=rng.randrange(4))
    frozen, held = im.plain(16), im.plain(16)
    for i in frozen:
        shape(im, rng, i, "Frozen")
    for i in held:
        shape(im, rng, i, rng.choice(["Mutable", "Mutable", "Frozen", "Context"]))
    place = lambda i: (i, rng.randrange(8), rng.randrange(2), any_span(rng))
    context = im.run([place(i) for i in frozen])
    inside = im.run([place(rng.choice(frozen)) for _ in range(rng.choice([32, 32, 31, 1]))])
    im.own = im.function(context, inside, KNOWN | TRACKED)
    captures = im.run([place(i) for i in held])
    for i in im.plain(rng.choice([64, 64, 63, 40])):
        im.add(create_function(im.place(i), im.own, captures))
    return im


# A long listing: one set of many values assigned to 64 identifiers, most value numbers with an entry.
# Its text is several times as long as the image.
def long_listing(rng):
    im = Image(options=rng.randrange(4), next=rng.choice([512, 512, 400]))
    ids = im.plain(rng.choice([512, 512, 100]))
    numbers = list(range(1, im.next)) + [OWN + i for i in ids]
    for n in numbers:
        if rng.random() < 0.97:
            im.value(n, rng.choice([MUTABLE, MUTABLE, MUTABLE, CONTEXT]), any_reasons(rng))
    im.points(0, numbers if rng.random() < 0.5 else rng.sample(numbers, len(numbers) - 5))
    for i in ids[70:]:
        im.points(i, rng.sample(numbers, rng.randrange(1, 8)))
    for i in ids[1:65]:
        im.add(flow(ASSIGN, im.place(0), im.place(i)))
    if rng.random() < 0.5:
        im.candidates.pop()
        im.add(freeze(im.place(rng.choice(ids)), rng.randrange(12)))
    im.lvalue = im.place(ids[-1])
    return im


# Every identifier defined by its own set, and 64 mutations or flows of different ones.
# First and last rows of every table are in use.
def full_tables(rng):
    im = Image(options=rng.randrange(4), next=512)
    ids = im.plain(512)
    for i in ids:
        im.value(OWN + i, rng.randrange(6), any_reasons(rng))
        im.points(i, sorted({OWN + i, rng.randrange(1, 512), OWN + rng.randrange(512)}))
    for n in range(1, 512):
        im.value(n, rng.randrange(6), any_reasons(rng))
    codes = list(ONE_PLACE) + [CAPTURE, MAYBE_ALIAS, IMMUTABLE_CAPTURE, FREEZE]
    some = [0, 1, 31, 32, 255, 256, 510, 511]
    pick = lambda: im.place(rng.choice(some + [rng.randrange(512)]), 0, 0, any_span(rng))
    for _ in range(64):
        code = rng.choice(codes)
        if code == FREEZE:
            im.add(freeze(pick(), rng.randrange(12)))
        else:
            im.add(flow(code, pick(), pick()) if code in FLOWS else one_place(code, pick()))
    im.lvalue = im.place(511)
    return im


EDGES = [("many keys", many_keys), ("many effects", many_effects), ("long listing", long_listing),
         ("full tables", full_tables)]
