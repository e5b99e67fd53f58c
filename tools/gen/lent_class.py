"""Which class, 1 to 5, a lent call earns: a plain test of document 01, 'Refused calls', and of docs/DECISIONS.md 12 to 14, 18, 19, 24, 25 and 40.

It goes through everything that is lent, notes each class that is earned, and the lowest one wins. It follows those texts; whoever
wrote it had read the port's tests before, so it is a second text and not an independent one.
"""

from lent import *
from names import *

CACHES = (CREATE, CREATE_FROM, CREATE_FUNCTION, KEY_ASSIGN_FROZEN, KEY_ASSIGN_COPY)
MAX_NAME, MAX_SENTENCE, MAX_REASON, MAX_KIND, MAX_EFFECT = 512, 10, 11, 5, 7


class Classes:
    """The classes that a call earns."""

    # None so far.
    # The answer is the lowest.
    def __init__(self):
        self.found = set()

    # Notes 2 where a count is above its limit.
    # "a count is above its limit"
    def count(self, n, most):
        if n > most:
            self.found.add(2)

    # Notes 3 where a number does not lie below a bound.
    # "lies outside its range"
    def below(self, x, bound):
        if x >= bound:
            self.found.add(3)

    # Notes 3 where something does not hold.
    # What is needed of numbers that lie in their ranges.
    def needs(self, ok):
        if not ok:
            self.found.add(3)

    # Notes 4 where a word without use is not zero.
    # "an unused word not zero"
    def unused(self, words):
        if any(words):
            self.found.add(4)

    # Notes 4 where something stands twice, or in the wrong order.
    # "two entries of one key, wrong order"
    def orderly(self, ok):
        if not ok:
            self.found.add(4)


# How many records the slices of a context have to have, those that follow from what is in use and from what the instruction can need.
# By the counts as they stand, whatever they are.
def least(lent):
    return least_records(lent, lent.counts[INTERNED_COUNT] + needs(lent.instructions[0]))


# Whether a slice of a context has the wrong length.
# The fixed ones are as long as they can be; the others have whole records, as many as are asked at the least.
def slice_wrong(slice, length, least):
    most = slice.count * slice.width
    if slice not in least:
        return length != length_of(slice, most)
    return length < least[slice] * slice.width or length > most or length % slice.width != 0


# Whether a length is wrong.
# Only the context's counts and its candidates are looked at for it.
def lengths_wrong(lent):
    lengths, asked = lent.lengths, least(lent)
    wrong = lengths[VALUES] != VALUES.count or lengths[SETS] % SETS.width or lengths[SETS] > SETS.count * SETS.width
    wrong = wrong or any(slice_wrong(s, lengths[s], asked) for s in CONTEXT_SLICES) or lent.instructions[0].length % EFFECT
    wrong = wrong or lengths[OUTPUT] != OUTPUT.count * OUTPUT.width or lengths[SCRATCH64] != VALUES.count + lengths[SETS]
    return bool(wrong or lengths[SCRATCH32] != sum(lengths[s] for s in SAVED))


# A state and its session.
# Entries at value numbers, rows of identifiers.
def test_state(c, lent, n):
    next_number, access = lent.session[:2]
    c.needs(1 <= next_number <= MAX_NEXT)
    c.needs(access <= n)
    number = lambda v: (c.needs(0 < v < OWN + n), c.orderly(v >= OWN or v < next_number))
    for v, word in lent.tables[VALUES].items():
        if word % 8 == 0:
            c.unused([word])
            continue
        number(v)
        c.below(word % 8 - 1, MAX_KIND + 1)
        c.below(word // 8, 1 << (MAX_REASON + 1))
    for i in range(n):
        row = record_of(lent.tables, SETS, i)
        if row[0] % 2 == 0:
            c.unused(row)
            continue
        for v in range(1, VALUES.count):
            if row[v // 64] >> (v % 64) & 1:
                number(v)


# Five words of a place.
# The span may hold anything.
def test_place(c, words, n):
    c.below(words[0], n)
    c.below(words[1], MAX_EFFECT + 1)
    c.below(words[2], 2)


# A run of places in a record, of which some are used.
# The rest has no use.
def test_places(c, words, used, n):
    for k in range(min(used, len(words) // 5)):
        test_place(c, words[5 * k:5 * k + 5], n)
    c.unused(words[5 * used:])


# The words of an effect; an Apply earns what is given, and nothing else of it is tested.
# A word that its code has no use for is zero.
def test_effect(c, words, lent, n, functions, apply):
    code = words[0]
    if code == APPLY:
        c.found.add(apply)
        return
    if code > RENDER:
        c.found.add(3)
        return
    part = lambda used, k, test: test(words[k]) if used else c.unused([words[k]])
    place = lambda used, k: test_place(c, words[k:k + 5], n) if used else c.unused(words[k:k + 5])
    place(code not in (CREATE, CREATE_FUNCTION), FIRST)
    place(code in FLOWS or code in (CREATE, CREATE_FUNCTION), SECOND)
    part(code == CREATE, KIND, lambda x: c.below(x, MAX_KIND + 1))
    part(code in (FREEZE, CREATE), REASON, lambda x: c.below(x, MAX_REASON + 1))
    part(code == MUTATE, MUTATION, lambda x: c.below(x, 2))
    part(code == CREATE_FUNCTION, FUNCTION, lambda x: c.below(x, functions))
    part(code in DIAGNOSED, IDENTITY, lambda x: c.below(x, MAX_DIAGNOSTICS))
    part(code in DIAGNOSED, INSTANCE, lambda x: c.below(x, lent.counts[DIAGNOSTIC_COUNT]))
    part(code == CREATE_FUNCTION, CAPTURES, lambda x: c.count(x, MAX_CAPTURES))
    test_places(c, words[CAPTURES + 1:], words[CAPTURES] if code == CREATE_FUNCTION else 0, n)
    if code in DIAGNOSED and words[INSTANCE] < MAX_DIAGNOSTICS:
        c.needs(words[IDENTITY] == record_of(lent.tables, DIAGNOSTICS, words[INSTANCE])[0])


# Options, identifiers and functions of a context.
# An instruction only reads them, but for the context places.
def test_fixed(c, lent, n, functions):
    c.below(lent.counts[OPTIONS], 4)
    for i in range(n):
        flags, name, start, end = record_of(lent.tables, IDENTIFIERS, i)
        c.below(flags, 4)
        c.below(name, MAX_NAME + 1)
        if not flags & HOISTED:
            c.unused([start, end])
    for f in range(functions):
        words = record_of(lent.tables, FUNCTIONS, f)
        flags, places, inside = words[:3]
        c.below(flags, 4)
        c.count(places, MAX_CONTEXT)
        c.count(inside, MAX_MUTATED)
        c.needs(flags & KNOWN or not (flags & TRACKED or inside))
        test_places(c, words[3:], inside, n)
        test_places(c, record_of(lent.tables, CONTEXTS, f), places, n)


# Links and cached keys of a context, of the numbers that were handed out.
# Those of other numbers have no use, and number 0 is none.
def test_numbers(c, tables, n, functions, handed_out):
    for v in range(handed_out):
        flag, function = record_of(tables, LINKS, v)
        key = record_of(tables, CACHED, v)
        if v == 0:
            c.unused([flag, function, *key])
            continue
        c.below(flag, 2)
        if flag:
            c.below(function, functions)
        else:
            c.unused([function])
        if key[0] == 0:
            c.unused(key)
            continue
        test_key(c, key, n, functions)


# The words of a cached key.
# "a cached key of an effect that caches none or without what its code needs": 3.
def test_key(c, key, n, functions):
    code, count = key[1], key[11]
    c.below(key[0], 2)
    if code not in CACHES:
        c.found.add(3)
        return
    for used, k, bound in ((code in WITH_SOURCE, 2, n), (True, 4, n), (code == CREATE_FUNCTION, 8, functions)):
        if used:
            c.needs(key[k] == 1)
            c.below(key[k + 1], bound)
        else:
            c.unused(key[k:k + 2])
    for k, bound in ((6, MAX_KIND + 1), (7, MAX_REASON + 1)):
        if code == CREATE:
            c.below(key[k], bound)
        else:
            c.unused([key[k]])
    c.unused([key[10]])
    if code == CREATE_FUNCTION:
        c.count(count, MAX_CAPTURES)
        for x in key[12:12 + count]:
            c.below(x, n)
        c.unused(key[12 + count:])
    else:
        c.unused(key[11:])


# The diagnostics of a context.
# Identities are numbered as they come; equal records stand once.
def test_diagnostics(c, tables, n, count):
    messages, seen = {}, set()
    for k in range(count):
        words = record_of(tables, DIAGNOSTICS, k)
        identity, identifier, case, sentence, name, start, end = words[:7]
        c.below(identity, MAX_DIAGNOSTICS)
        c.below(identifier, n)
        c.below(case, 2)
        c.below(name, MAX_NAME + 1)
        if case == 0:
            c.below(sentence, MAX_SENTENCE + 1)
            c.orderly((start, end) == NO_SPAN)
        else:
            c.unused([sentence])
        message = (identifier, case, sentence if case == 0 else name)
        c.orderly(identity == messages.setdefault(message, len(messages)))
        c.orderly(tuple(words) not in seen)
        seen.add(tuple(words))


# The order of the interned effects: numbers of records in use, along which the keys ascend.
# Two effects of one key cannot ascend, wherever they stand in it; n places that do name every one of n records.
def test_order(c, tables, count):
    order = [tables[EFFECT_ORDER].get(j, 0) for j in range(count)]
    for k in order:
        c.below(k, count)
    keys = [effect_key(record_of(tables, INTERNED, k)) for k in order]
    c.orderly(all(a < b for a, b in zip(keys, keys[1:])))


# The order of the cached keys: numbers that were handed out and have a key, along which the keys ascend, and as many as have one.
# Two numbers of one key cannot ascend; where the order has as many places as there are keys, none is left out.
def test_key_order(c, tables, handed_out, count):
    keyed = [v for v in range(handed_out) if record_of(tables, CACHED, v)[0]]
    c.orderly(len(keyed) == count)
    order = [tables[KEY_ORDER].get(j, 0) for j in range(count)]
    for v in order:
        c.below(v, handed_out)
        c.orderly(v in keyed)
    keys = [cached_key(record_of(tables, CACHED, v)) for v in order]
    c.orderly(all(a < b for a, b in zip(keys, keys[1:])))


# What stands after the records in use of each slice.
# "also after the last record, and at a number that is not handed out yet"
def test_rest(c, tables, used):
    for slice, count in used:
        c.unused([x for k, x in tables[slice].items() if k >= at(slice, count)])


# A context, by its counts and then all its slices.
# A count above its limit leaves nothing else to be looked at.
def test_context(c, lent, n):
    tables, next_number = lent.tables, lent.session[0]
    functions, interned, count, keys = (lent.counts[k] for k in (FUNCTION_COUNT, INTERNED_COUNT, DIAGNOSTIC_COUNT, KEY_COUNT))
    if functions > MAX_FUNCTIONS or interned > MAX_INTERNED or count > MAX_DIAGNOSTICS or keys >= OWN:
        c.found.add(2)
        return
    handed_out = min(next_number, MAX_NEXT)
    test_fixed(c, lent, n, functions)
    test_numbers(c, tables, n, functions, handed_out)
    test_key_order(c, tables, handed_out, keys)
    test_diagnostics(c, tables, n, count)
    for k in range(interned):
        test_effect(c, record_of(tables, INTERNED, k), lent, n, functions, 3)
    test_order(c, tables, interned)
    test_rest(c, tables, [(IDENTIFIERS, n), (FUNCTIONS, functions), (CONTEXTS, functions), (LINKS, handed_out), (CACHED, handed_out),
                          (KEY_ORDER, keys), (INTERNED, interned), (EFFECT_ORDER, interned), (DIAGNOSTICS, count)])


# An instruction over a context.
# At most 64 candidates, places of the list, an own function that there is.
def test_instruction(c, lent, instruction, n):
    functions, count = lent.counts[FUNCTION_COUNT], instruction.length // EFFECT
    c.count(count, MAX_CANDIDATES)
    test_place(c, instruction.lvalue, n)
    c.needs(instruction.own <= functions)
    for k in range(min(count, MAX_CANDIDATES)):
        test_effect(c, record_of(instruction.tables, CANDIDATES, k), lent, n, functions, 5)


# The class of a call with the first instruction of a job, 0 where it is accepted.
# The lowest that anything earns.
def call_class(lent):
    instruction = lent.instructions[0]
    if lengths_wrong(lent):
        return 1
    c, n = Classes(), lent.identifiers()
    test_state(c, lent, n)
    test_context(c, lent, n)
    test_instruction(c, lent, instruction, n)
    return min(c.found, default=0)
