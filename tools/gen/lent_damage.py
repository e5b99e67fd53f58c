"""Damages of lent jobs: one word or one length changed, and the class that the call must then earn.

Each damage has its class by hand, from document 01 and docs/DECISIONS.md; the plain test of `lent_class.py` must agree.
A damage gets a copy of a job with its first instruction alone, and says whether it applies.
"""

import random

from lent import *
from lent_class import call_class, least
from names import *

FULL = 0xFFFFFFFF


# ------------------------------------------------------------ what a job has

# How many functions a job has.
# The bound of their numbers.
def functions(lent):
    return lent.counts[FUNCTION_COUNT]


# How many interned effects a job has.
# Those after them are unused.
def interned(lent):
    return lent.counts[INTERNED_COUNT]


# How many diagnostics a job has.
# The bound of their instances.
def diagnostics(lent):
    return lent.counts[DIAGNOSTIC_COUNT]


# How many cached keys a job has, by its count.
# The places of their order.
def cached(lent):
    return lent.counts[KEY_COUNT]


# The cached keys of a job, as (number, words).
# Of the numbers that are handed out.
def keys_of(lent):
    records = [(v, record_of(lent.tables, CACHED, v)) for v in range(1, next_number(lent))]
    return [(v, words) for v, words in records if words[0]]


# The session's next number.
# Fresh numbers from there on are not handed out.
def next_number(lent):
    return lent.session[0]


# How many candidates the instruction has.
# By its length.
def candidates(lent):
    return lent.instructions[0].length // EFFECT


# Instances of diagnostics that effects name.
# A damage of another one is seen in the table alone.
def named(lent):
    records = [record_of(lent.tables, INTERNED, k) for k in range(interned(lent))]
    records += [record_of(lent.instructions[0].tables, CANDIDATES, k) for k in range(candidates(lent))]
    return {r[INSTANCE] for r in records if r[0] in DIAGNOSED}


# An order of a job, of its interned effects or of its cached keys, as the list of their numbers.
# As long as their count says.
def order_of(lent, slice):
    return [lent.tables[slice].get(j, 0) for j in range(IN_USE[slice](lent)[1])]


# Of each slice the first record in use and the one after the last.
IN_USE = {
    IDENTIFIERS: lambda t: (0, t.identifiers()), FUNCTIONS: lambda t: (0, functions(t)), CONTEXTS: lambda t: (0, functions(t)),
    LINKS: lambda t: (1, next_number(t)), CACHED: lambda t: (1, next_number(t)), DIAGNOSTICS: lambda t: (0, diagnostics(t)),
    EFFECT_ORDER: lambda t: (0, interned(t)), KEY_ORDER: lambda t: (0, cached(t)), INTERNED: lambda t: (0, interned(t)),
    CANDIDATES: lambda t: (0, candidates(t)),
}


# The tables that a slice stands in.
# Candidates stand with their instruction.
def tables_of(lent, slice):
    return lent.instructions[0].tables if slice is CANDIDATES else lent.tables


# A record in use that passes a test, by chance, or none.
# A test gets its words.
def some_record(lent, rng, slice, test):
    first, end = IN_USE[slice](lent)
    fit = [k for k in range(first, end) if test(record_of(tables_of(lent, slice), slice, k))]
    return rng.choice(fit) if fit else None


# How many words a slice has in all, where it has one length, or at the most.
# Its whole table.
def most(slice):
    return slice.count * slice.width


# ------------------------------------------------------------ damages of lengths

# The slices get room for what is in use and what the instruction needs, where they have less, and scratch follows.
# So that a damage that adds to the need is seen in what it damages.
def widen(lent):
    for slice, n in least(lent).items():
        lent.lengths[slice] = max(lent.lengths[slice], min(n, slice.count) * slice.width)
    fit_scratch(lent)


# Slices get just as many records as are needed, or so many more or less, and scratch follows.
# None less than no record does not apply.
def fit(lent, slices, more=0):
    n = least(lent)
    for slice in slices:
        lent.lengths[slice] = (n[slice] + more) * slice.width
    fit_scratch(lent)
    return all(n[slice] + more >= 0 for slice in slices)


# Every slice has just the room that is needed, after other damages; does not apply where that is the largest for effects.
# Whoever needs more than the definition says refuses it with 1.
def narrow(*acts):
    def act(lent, rng):
        done = all(part(lent, rng) for part in acts)
        return fit(lent, ROOMS) and done and lent.lengths[INTERNED] < most(INTERNED)
    return act


# Slices are one record shorter than needed, after other damages; all others are long enough.
# Whoever needs less than the definition says does not see it.
def short_of_one(slices, *acts):
    def act(lent, rng):
        done = all(part(lent, rng) for part in acts)
        widen(lent)
        return fit(lent, slices, -1) and done
    return act


# Slices have just the room that was needed before other damages, and all others are long enough; applies where these add to it.
# A count, or a candidate, then asks for more than is lent.
def outgrown(slices, *acts):
    def act(lent, rng):
        before = least(lent)
        done = all(part(lent, rng) for part in acts)
        widen(lent)
        for slice in slices:
            lent.lengths[slice] = before[slice] * slice.width
        fit_scratch(lent)
        return done and all(least(lent)[slice] > before[slice] for slice in slices)
    return act


# Every slice has the largest length, with other damages.
# It is always right.
def largest(*acts):
    def act(lent, rng):
        for slice in ROOMS:
            lent.lengths[slice] = most(slice)
        fit_scratch(lent)
        return all(part(lent, rng) for part in acts)
    return act


# Slices have room for so many records.
# No more is looked at.
def room(slices, n):
    def act(lent, rng):
        for slice in slices:
            lent.lengths[slice] = n * slice.width
        fit_scratch(lent)
        return True
    return act


# The scratch of a context stays as long as it was, while slices get other lengths; applies where it should follow.
# Only its length is then wrong.
def scratch_as_before(act):
    def whole(lent, rng):
        before = lent.lengths[SCRATCH32]
        done = act(lent, rng)
        right, lent.lengths[SCRATCH32] = lent.lengths[SCRATCH32], before
        return done and right != before
    return whole


# Several damages, one after the other.
# Each must apply.
def together(*acts):
    return lambda lent, rng: all(part(lent, rng) for part in acts)


# A length becomes what is given from the old one; a length below zero, or the same, does not apply.
# The arrays of the program have room for a record more than can be lent, and a few words.
def length(slice, change):
    def act(lent, rng):
        before = lent.lengths[slice]
        lent.lengths[slice] = change(before)
        return lent.lengths[slice] >= 0 and lent.lengths[slice] != before
    return act


# The same of a slice of a context, where scratch follows.
# So that scratch is right where its length is what is wrong.
def resized(slice, change):
    def act(lent, rng):
        done = length(slice, change)(lent, rng)
        fit_scratch(lent)
        return done
    return act


# The candidates' length becomes what is given from the old one.
# A length below zero does not apply.
def candidates_length(change):
    def act(lent, rng):
        lent.instructions[0].length = change(lent.instructions[0].length)
        return lent.instructions[0].length >= 0
    return act


# The sets with their scratch get some rows more or less.
# The lengths then fit each other.
def rows(change):
    def act(lent, rng):
        n = lent.identifiers() + change(lent.identifiers())
        lent.lengths[SETS], lent.lengths[SCRATCH64] = n * SETS.width, VALUES.count + n * SETS.width
        return 0 <= n <= 513
    return act


# The last identifier has no row, and its record stays, where nothing else is wrong of it.
# The words after the last record are unused.
def row_gone(lent, rng):
    n = lent.identifiers() - 1
    if not rows(lambda _: -1)(lent, rng):
        return False
    words = record_of(lent.tables, IDENTIFIERS, n)
    put_record(lent.tables, IDENTIFIERS, n, [0] * IDENTIFIERS.width)
    accepted = call_class(lent) == 0
    put_record(lent.tables, IDENTIFIERS, n, words)
    return accepted and any(words)


# ------------------------------------------------------------ damages of words

# A word of the session becomes a number.
# 0 next, 1 access.
def session(k, number):
    def act(lent, rng):
        lent.session[k] = number(lent)
        return True
    return act


# A word of the lvalue becomes a number.
# Identifier, effect, reactive.
def lvalue(k, number):
    def act(lent, rng):
        lent.instructions[0].lvalue[k] = number(lent)
        return True
    return act


# The own function becomes a number.
# 1 + a function, or 0.
def own(number):
    def act(lent, rng):
        lent.instructions[0].own = number(lent)
        return True
    return act


# A word of a record in use becomes a number, where the record passes a test.
# The number may follow from the job; none does not apply.
def field(slice, w, number, test=lambda r: True):
    def act(lent, rng):
        k = some_record(lent, rng, slice, test)
        if k is None:
            return False
        words = record_of(tables_of(lent, slice), slice, k)
        before, words[w] = words[w], number(lent) if callable(number) else number
        put_record(tables_of(lent, slice), slice, k, words)
        return words[w] != before
    return act


# The options, or a count, become a number.
# The number may follow from the job.
def count(which, number):
    def act(lent, rng):
        lent.counts[which] = number(lent) if callable(number) else number
        return True
    return act


# A word of a slice becomes a number.
# Of a record that no test reaches.
def word(slice, k, number):
    def act(lent, rng):
        put(lent.tables[slice], k, [number])
        return True
    return act


# Where the words after the last record of a slice begin and end.
# Those that are lent.
def unused_words(lent, slice):
    return at(slice, IN_USE[slice](lent)[1]), words_of_length(slice, lent.lengths[slice])


# A word after the last record of a slice becomes 1.
# Any of its unused words that are lent.
def after(slice):
    def act(lent, rng):
        start, end = unused_words(lent, slice)
        if start >= end:
            return False
        put(lent.tables[slice], rng.randrange(start, end), [1])
        return True
    return act


# The last word that is lent of a slice becomes 1, where it stands after the last record.
# No test of a record reaches it.
def last_word(slice):
    def act(lent, rng):
        start, end = unused_words(lent, slice)
        put(lent.tables[slice], end - 1, [1])
        return start < end
    return act


# A value number gets a word.
# Number and word follow from the job.
def value(number, new):
    def act(lent, rng):
        v = number(lent)
        if not 0 <= v < VALUES.count or v in lent.tables[VALUES]:
            return False
        put(lent.tables[VALUES], v, [new])
        return True
    return act


# An entry of a value gets another word.
# By its old one.
def entry(change):
    def act(lent, rng):
        values = lent.tables[VALUES]
        if not values:
            return False
        v = rng.choice(sorted(values))
        put(values, v, [change(values[v])])
        return True
    return act


# A row that is defined, or one that is not, gets a bit.
# The bit follows from the job.
def member(defined, number):
    def act(lent, rng):
        sets, v = lent.tables[SETS], number(lent)
        fit = [i for i in range(lent.identifiers()) if (sets.get(at(SETS, i), 0) & 1) == defined]
        if not fit or not 0 < v < VALUES.count:
            return False
        i = at(SETS, rng.choice(fit)) + v // 64
        put(sets, i, [sets.get(i, 0) | 1 << v % 64])
        return True
    return act


# A record of a slice is repeated after its last one, and counted.
# Diagnostics, and interned effects without a place in the order.
def repeated(slice, which):
    def act(lent, rng):
        n = IN_USE[slice](lent)[1]
        if not 0 < n < slice.count:
            return False
        put_record(lent.tables, slice, n, record_of(lent.tables, slice, rng.randrange(n)))
        lent.counts[which] = n + 1
        return True
    return act


# An interned effect is repeated after the last one, counted, and comes next to the first by its key; a change makes the copy, or none.
# "two entries of one key": its order is right but for the two.
def doubled(change):
    def act(lent, rng):
        n, order = interned(lent), order_of(lent, EFFECT_ORDER)
        copies = [(j, change(lent, record_of(lent.tables, INTERNED, k))) for j, k in enumerate(order)]
        fit = [(j, words) for j, words in copies if words is not None]
        if not fit or n == INTERNED.count:
            return False
        j, words = rng.choice(fit)
        put_record(lent.tables, INTERNED, n, words)
        lent.counts[INTERNED_COUNT] = n + 1
        put(lent.tables[EFFECT_ORDER], 0, order[:j + 1] + [n] + order[j + 1:])
        return True
    return act


# An effect with a word raised by one, where its code is one of those given.
# For words that are not in its key; spans may hold anything.
def raised(w, *codes):
    def change(lent, words):
        if words[0] not in codes or words[w] == FULL:
            return None
        return words[:w] + [words[w] + 1] + words[w + 1:]
    return change


# A Mutate without a reason gets one.
# Its key is the same.
def with_reason(lent, words):
    return raised(MUTATION, MUTATE)(lent, words) if words[MUTATION] == 0 else None


# An Impure gets a diagnostic of a higher identity.
# The first one of the table.
def with_diagnostic(lent, words):
    found = [(record_of(lent.tables, DIAGNOSTICS, d)[0], d) for d in range(diagnostics(lent))]
    higher = [(identity, d) for identity, d in found if words[0] == IMPURE and identity > words[IDENTITY]]
    return words[:IDENTITY] + list(higher[0]) + words[INSTANCE + 1:] if higher else None


# An order gets other places from the old ones, where there are two or more.
# A change gets their list and chance.
def reordered(slice, change):
    def act(lent, rng):
        order = order_of(lent, slice)
        if len(order) < 2:
            return False
        put(lent.tables[slice], 0, change(order, rng))
        return True
    return act


# A place of an order, counted from its first or from its last, becomes a number that follows from the job.
# Where there is one.
def placed(slice, j, number):
    def act(lent, rng):
        order = order_of(lent, slice)
        if not order:
            return False
        order[j] = number(lent)
        put(lent.tables[slice], 0, order)
        return True
    return act


# Two places of an order exchanged, by chance.
# Any two.
def exchanged(order, rng):
    i, j = sorted(rng.sample(range(len(order)), 2))
    return order[:i] + [order[j]] + order[i + 1:j] + [order[i]] + order[j + 1:]


# A place of an order names what the one before it names.
# By chance, and not the first.
def named_again(order, rng):
    j = rng.randrange(1, len(order))
    return order[:j] + [order[j - 1]] + order[j + 1:]


# Two more interned effects, given by their words that are not zero, that come in the order the other way round.
# Only where the call is accepted with the two in their order.
def disordered(first, second):
    def act(lent, rng):
        effects = [record_of(lent.tables, INTERNED, k) for k in range(interned(lent))]
        n = len(effects)
        if n + 2 > INTERNED.count:
            return False
        put_interned(lent, effects + [[words.get(w, 0) for w in range(EFFECT)] for words in (first, second)])
        widen(lent)
        if call_class(lent):
            return False
        put(lent.tables[EFFECT_ORDER], 0, [{n: n + 1, n + 1: n}.get(k, k) for k in order_of(lent, EFFECT_ORDER)])
        return True
    return act


# Two records that an order names exchanged, or one of them put in the place of both; the order stays.
# Every record is right.
def records_changed(order, slice, both):
    def act(lent, rng):
        numbers = order_of(lent, order)
        if len(numbers) < 2:
            return False
        a, b = rng.sample(sorted(numbers), 2)
        first, second = (record_of(lent.tables, slice, k) for k in (a, b))
        put_record(lent.tables, slice, a, second)
        if both:
            put_record(lent.tables, slice, b, first)
        return True
    return act


# The last interned effect is not counted, where its number has a place among the first of the order, or the last place.
# Then a place is out of range, or a word of the order has no use.
def uncounted_effect(last):
    def act(lent, rng):
        order = order_of(lent, EFFECT_ORDER)
        if not order or (order[-1] == len(order) - 1) != last:
            return False
        return uncounted(INTERNED, INTERNED_COUNT)(lent, rng)
    return act


# The last interned effect is not counted, and has no place in the order.
# Its words alone are too many.
def left_over(lent, rng):
    order = order_of(lent, EFFECT_ORDER)
    put(lent.tables[EFFECT_ORDER], 0, [k for k in order if k != len(order) - 1] + [0] * bool(order))
    return uncounted(INTERNED, INTERNED_COUNT)(lent, rng)


# The count of a slice falls by one.
# The words of its last record then have no use.
def uncounted(slice, which):
    def act(lent, rng):
        n = IN_USE[slice](lent)[1]
        if n == 0 or not any(record_of(lent.tables, slice, n - 1)):
            return False
        lent.counts[which] = n - 1
        return True
    return act


# A number that has a key and one that has none, both handed out, by chance; or none.
# A damage says what becomes of them.
def two_numbers(lent, rng):
    found = [some_record(lent, rng, CACHED, test) for test in (lambda r: r[0], lambda r: not r[0])]
    return None if None in found else found


# The order of the cached keys and their count become those given.
# Words that the old order had more become zero.
def put_order(lent, order):
    put(lent.tables[KEY_ORDER], 0, order + [0] * max(0, cached(lent) - len(order)))
    lent.counts[KEY_COUNT] = len(order)


# A number without a key gets the key of another; the order is made from the old one, the place of the key in it and the number, or stays.
# "two entries of one key": with the two side by side it is right but for them.
def repeated_key(change=None):
    def act(lent, rng):
        found = two_numbers(lent, rng)
        if found is None:
            return False
        number, other = found
        put_record(lent.tables, CACHED, other, record_of(lent.tables, CACHED, number))
        if change:
            order = order_of(lent, KEY_ORDER)
            put_order(lent, change(order, order.index(number), other))
        return True
    return act


# A key is moved to a number that has none; the order stays.
# The key of the first place of the order, or any.
def moved_key(first):
    def act(lent, rng):
        found = two_numbers(lent, rng)
        if found is None:
            return False
        number, other = found
        number = order_of(lent, KEY_ORDER)[0] if first else number
        put_record(lent.tables, CACHED, other, record_of(lent.tables, CACHED, number))
        put_record(lent.tables, CACHED, number, [0] * KEY)
        return True
    return act


# A key is taken away; the order stays.
# Its place then names a number without a key.
def key_gone(lent, rng):
    number = some_record(lent, rng, CACHED, lambda r: r[0])
    if number is None:
        return False
    put_record(lent.tables, CACHED, number, [0] * KEY)
    return True


# A number that is handed out and has no key, by chance, or none.
# Not number 0.
def keyless(lent, rng):
    return some_record(lent, rng, CACHED, lambda r: not r[0])


# A key has no place in the order, and is not counted; a number of the job may have the first place instead, and is counted.
# A number without a key reads as the lowest key of all, so that the order ascends.
def left_out(number=None):
    def act(lent, rng):
        order = order_of(lent, KEY_ORDER)
        first = [] if number is None else [number(lent, rng)]
        if not order or None in first:
            return False
        order.remove(rng.choice(order))
        put_order(lent, first + order)
        return True
    return act


# A number without a key has the first place of the order, and is counted.
# Every key keeps its place after it.
def keyless_first(lent, rng):
    number = keyless(lent, rng)
    if number is None:
        return False
    put_order(lent, [number] + order_of(lent, KEY_ORDER))
    return True


# A place of the order names a number without a key.
# By chance.
def keyless_named(lent, rng):
    number, order = keyless(lent, rng), order_of(lent, KEY_ORDER)
    if number is None or not order:
        return False
    order[rng.randrange(len(order))] = number
    put_order(lent, order)
    return True


# The next number falls to the highest that has a key.
# Which is then not handed out, and has a place in the order.
def next_at_key(lent, rng):
    lent.session[0] = max((v for v, _ in keys_of(lent)), default=0)
    return lent.session[0] > 0


# The next number, which is not handed out, gets a key, which is counted and in its place.
# The key would be right of another number.
def key_at_next(lent, rng):
    if next_number(lent) >= OWN:
        return False
    keys = keys_of(lent) + [(next_number(lent), key_words(KEY_ASSIGN_COPY, 0, 0, 0, 0, 0, []))]
    put_record(lent.tables, CACHED, *keys[-1])
    put_key_order(lent, keys)
    return N(lent) > 0


# More keys, as (number, words), counted and in their places; the numbers below the given next are handed out.
# Whether the call is then accepted.
def keys_added(lent, added, after):
    keys = keys_of(lent) + added
    for v, words in keys:
        put_record(lent.tables, CACHED, v, words)
    put_key_order(lent, keys)
    lent.session[0] = after
    return after <= MAX_NEXT and call_class(lent) == 0


# Two more numbers with keys that come in the order the other way round; the higher number has the first of the two keys.
# Only where the call is accepted with the two in their order.
def disordered_keys(first, second):
    def act(lent, rng):
        n = next_number(lent)
        if not keys_added(lent, [(n, key_words(*second)), (n + 1, key_words(*first))], n + 2):
            return False
        put(lent.tables[KEY_ORDER], 0, [{n: n + 1, n + 1: n}.get(v, v) for v in order_of(lent, KEY_ORDER)])
        return True
    return act


# As many cached keys as there can be: every fresh number has one.
# Creates with every kind and reason, and from each identifier into each; in their order the numbers fall.
def all_keys(lent, rng):
    keys, identifiers = dict(keys_of(lent)), range(N(lent))
    made = [key_words(CREATE, 0, i, kind, reason, 0, []) for i in identifiers for kind in range(6) for reason in range(12)]
    made += [key_words(code, i, j, 0, 0, 0, []) for code in WITH_SOURCE for i in identifiers for j in identifiers]
    added = [words for words in made if words not in keys.values()]
    free = [v for v in range(OWN - 1, 0, -1) if v not in keys]
    return len(added) >= len(free) and keys_added(lent, list(zip(free, added)), MAX_NEXT)


# A diagnostic that no effect names gets another identity.
# One that is in range.
def misnumbered(lent, rng):
    fit = sorted(set(range(diagnostics(lent))) - named(lent))
    if not fit:
        return False
    k, table = at(DIAGNOSTICS, rng.choice(fit)), lent.tables[DIAGNOSTICS]
    put(table, k, [table.get(k, 0) + 1])
    return True


# An effect of a code with anything in it.
# Every other word is FFFFFFFF.
def anything(code):
    return [code] + [FULL] * (EFFECT - 1)


# A candidate becomes an Apply, and its other words anything.
# "Of an Apply no word but the code is tested."
def applied(which, garbage):
    def act(lent, rng):
        n = candidates(lent)
        if n == 0:
            return False
        k, tables = which(n, rng), lent.instructions[0].tables
        put_record(tables, CANDIDATES, k, anything(APPLY) if garbage else [APPLY] + record_of(tables, CANDIDATES, k)[1:])
        return True
    return act


# There are 66 candidates, and all after the 64th are one given.
# "above its limit": they are not looked at.
def too_many(words):
    def act(lent, rng):
        lent.instructions[0].length = 66 * EFFECT
        for k in (64, 65):
            put_record(lent.instructions[0].tables, CANDIDATES, k, words)
        return True
    return act


# A candidate becomes one of a code, and its other words anything.
# What is no code has no captures.
def unknown(number):
    def act(lent, rng):
        n = candidates(lent)
        if n == 0:
            return False
        put_record(lent.instructions[0].tables, CANDIDATES, rng.randrange(n), anything(number))
        return True
    return act


# Every candidate becomes an Apply.
# Nothing else of the list is then tested.
def all_applied(lent, rng):
    tables = lent.instructions[0].tables
    for k in range(candidates(lent)):
        put_record(tables, CANDIDATES, k, [APPLY] + record_of(tables, CANDIDATES, k)[1:])
    return candidates(lent) > 1


# ------------------------------------------------------------ the table

# A test of effects by their code.
# Which words are used follows from it.
def code(*codes):
    return lambda r: r[0] in codes


# A test of keys by their code.
# Of numbers that have one.
def key(*codes):
    return lambda r: r[0] == 1 and r[1] in codes


N = lambda t: t.identifiers()
HAS_FIRST = code(*[c for c in range(18) if c not in (CREATE, APPLY, CREATE_FUNCTION)])
HAS_SECOND = code(*FLOWS, CREATE, CREATE_FUNCTION)
CAPTURED = lambda r: r[0] == CREATE_FUNCTION and r[CAPTURES] > 0
NO_MORE = lambda r: r[0] == CREATE_FUNCTION and r[CAPTURES] < MAX_CAPTURES


# Damages of the words of an effect, in the table of interned ones or among candidates.
# The same words stand in both.
def of_effects(name, slice):
    return [(name + ": " + label, expected, field(slice, w, number, test)) for label, expected, w, number, test in [
        ("17 captures", 2, CAPTURES, 17, code(CREATE_FUNCTION)),
        ("code 18", 3, 0, 18, lambda r: True),
        ("code FFFFFFFF", 3, 0, FULL, lambda r: True),
        ("source not in the list", 3, FIRST, N, HAS_FIRST),
        ("source's effect 8", 3, FIRST + 1, 8, HAS_FIRST),
        ("source reactive 2", 3, FIRST + 2, 2, HAS_FIRST),
        ("destination not in the list", 3, SECOND, N, HAS_SECOND),
        ("destination's effect 8", 3, SECOND + 1, 8, HAS_SECOND),
        ("kind 6", 3, KIND, 6, code(CREATE)),
        ("reason 12 of a Create", 3, REASON, 12, code(CREATE)),
        ("reason 12 of a Freeze", 3, REASON, 12, code(FREEZE)),
        ("mutation reason 2", 3, MUTATION, 2, code(MUTATE)),
        ("function not in the list", 3, FUNCTION, functions, code(CREATE_FUNCTION)),
        ("instance not in the table", 3, INSTANCE, diagnostics, code(*DIAGNOSED)),
        ("instance FFFFFFFF", 3, INSTANCE, FULL, code(*DIAGNOSED)),
        ("identity of no diagnostic", 3, IDENTITY, 255, code(*DIAGNOSED)),
        ("capture not in the list", 3, CAPTURES + 1, N, CAPTURED),
        ("source of a Create", 4, FIRST + 3, 7, code(CREATE, CREATE_FUNCTION)),
        ("destination of a one-place effect", 4, SECOND, 1, code(FREEZE, *MUTATIONS, RENDER, *DIAGNOSED)),
        ("kind where none is", 4, KIND, FULL, lambda r: r[0] not in (CREATE, APPLY)),
        ("reason where none is", 4, REASON, 1, lambda r: r[0] not in (FREEZE, CREATE)),
        ("function where none is", 4, FUNCTION, FULL, lambda r: r[0] != CREATE_FUNCTION),
        ("instance where none is", 4, INSTANCE, 1, lambda r: r[0] not in DIAGNOSED),
        ("17 captures where none are", 4, CAPTURES, 17, lambda r: r[0] != CREATE_FUNCTION),
        ("a word after the last capture", 4, EFFECT - 1, 1, NO_MORE),
    ]]


# Damages of an order: of the interned effects, or of the cached keys.
# What a place may name lies below a bound.
def of_order(name, slice, records, bound):
    return [(name + ": " + label, expected, act) for label, expected, act in [
        ("a place not in the list", 3, field(slice, 0, bound)),
        ("a place FFFFFFFF", 3, field(slice, 0, FULL)),
        ("the first place not in the list", 3, placed(slice, 0, bound)),
        ("the last place not in the list", 3, placed(slice, -1, bound)),
        ("after the last place", 4, after(slice)),
        ("the last word", 4, last_word(slice)),
        ("two records equal, the order as before", 4, records_changed(slice, records, False)),
        ("two records exchanged, the order as before", 4, records_changed(slice, records, True)),
        ("two places exchanged", 4, reordered(slice, exchanged)),
        ("the first two places exchanged", 4, reordered(slice, lambda order, rng: order[1::-1] + order[2:])),
        ("the last two places exchanged", 4, reordered(slice, lambda order, rng: order[:-2] + order[:-3:-1])),
        ("backwards", 4, reordered(slice, lambda order, rng: order[::-1])),
        ("every place 0", 4, reordered(slice, lambda order, rng: [0] * len(order))),
        ("a place twice", 4, reordered(slice, named_again)),
        ("the last place as the first", 4, reordered(slice, lambda order, rng: order[:-1] + order[:1])),
    ]]


# Damages of the cached keys with their count and order.
# Each of the order's own tests alone, where one alone can fail.
def of_keys():
    return [("keys: " + label, expected, act) for label, expected, act in [
        ("512 counted", 2, count(KEY_COUNT, 512)),
        ("600 counted", 2, count(KEY_COUNT, 600)),
        ("FFFFFFFF counted", 2, count(KEY_COUNT, FULL)),
        ("a place 512", 3, field(KEY_ORDER, 0, 512)),
        ("next at a number with a key", 3, next_at_key),
        ("one of the next number, counted and in its place", 3, key_at_next),
        ("511 counted that are not there", 4, lambda t, r: cached(t) < 511 and count(KEY_COUNT, 511)(t, r)),
        ("one more counted", 4, lambda t, r: cached(t) < 511 and count(KEY_COUNT, cached(t) + 1)(t, r)),
        ("one less counted", 4, lambda t, r: cached(t) > 0 and count(KEY_COUNT, cached(t) - 1)(t, r)),
        ("none counted", 4, lambda t, r: cached(t) > 0 and count(KEY_COUNT, 0)(t, r)),
        ("none counted, no order", 4, lambda t, r: cached(t) > 0 and put_order(t, []) is None),
        ("one taken away", 4, key_gone),
        ("one moved to another number", 4, moved_key(False)),
        ("the first moved to another number", 4, moved_key(True)),
        ("one left out and not counted", 4, left_out()),
        ("one left out, a number without a key in the first place", 4, left_out(keyless)),
        ("one left out, number 0 in the first place", 4, left_out(lambda t, r: 0)),
        ("a number without a key in the first place, counted", 4, keyless_first),
        ("a place of a number without a key", 4, keyless_named),
        ("a place 0", 4, field(KEY_ORDER, 0, 0)),
        ("one twice", 4, repeated_key()),
        ("one twice, counted, the other after it", 4, repeated_key(lambda order, j, v: order[:j + 1] + [v] + order[j + 1:])),
        ("one twice, counted, the other before it", 4, repeated_key(lambda order, j, v: order[:j] + [v] + order[j:])),
        ("one twice, counted, the other last", 4, repeated_key(lambda order, j, v: order + [v])),
        ("one twice, counted, one number at both places", 4, repeated_key(lambda order, j, v: order[:j + 1] + order[j:])),
        ("one twice, the other in its place", 4, repeated_key(lambda order, j, v: order[:j] + [v] + order[j + 1:])),
        ("511, the first candidate an Apply", 5, lambda t, r: all_keys(t, r) and applied(lambda n, rng: 0, False)(t, r)),
    ]]


# Damages of the order of the cached keys by the part of two that decides, as of the interned effects.
# Code, source, destination, kind, reason, function, captures; a cached key has no identity.
def of_key_parts():
    function = lambda f, *captures: (CREATE_FUNCTION, 0, 0, 0, 0, f, captures)
    plain = lambda code, source=0, into=0, kind=0, reason=0: (code, source, into, kind, reason, 0, ())
    return [("key order: by " + name + ", exchanged", 4, disordered_keys(first, second)) for name, first, second in [
        ("code", plain(CREATE), plain(CREATE_FROM)),
        ("code of an Assign", plain(KEY_ASSIGN_FROZEN), plain(KEY_ASSIGN_COPY)),
        ("source", plain(CREATE_FROM), plain(CREATE_FROM, 1)),
        ("destination", plain(KEY_ASSIGN_COPY), plain(KEY_ASSIGN_COPY, 0, 1)),
        ("destination of a Create", plain(CREATE), plain(CREATE, 0, 1)),
        ("kind", plain(CREATE), plain(CREATE, 0, 0, 1)),
        ("reason", plain(CREATE), plain(CREATE, 0, 0, 0, 1)),
        ("function", function(0), function(1)),
        ("capture", function(0, 0), function(0, 1)),
        ("last capture", function(0, *[0] * 16), function(0, *[0] * 15, 1)),
        ("count of captures", function(0, 0), function(0, 0, 0)),
        ("no capture", function(0), function(0, 0)),
        ("code before source", plain(CREATE_FROM, 1), plain(KEY_ASSIGN_FROZEN)),
        ("source before destination", plain(CREATE_FROM, 0, 1), plain(CREATE_FROM, 1)),
        ("kind before reason", plain(CREATE, 0, 0, 0, 1), plain(CREATE, 0, 0, 1)),
        ("destination before function", function(1), (CREATE_FUNCTION, 0, 1, 0, 0, 0, ())),
        ("function before captures", function(0, 1), function(1, 0)),
        ("captures before their count", function(0, 0, 0), function(0, 1)),
    ]]


# Damages of the order by the part of two keys that decides: all before it is equal.
# Every part of a key, and a list of captures that ends first.
def of_parts():
    function = {0: CREATE_FUNCTION, CAPTURES: 1}
    return [("order: by " + name + ", exchanged", 4, disordered(first, second)) for name, first, second in [
        ("code", {0: MUTATE_COND}, {0: MUTATE_TRANS}),
        ("source", {0: CAPTURE}, {0: CAPTURE, FIRST: 1}),
        ("destination", {0: CAPTURE}, {0: CAPTURE, SECOND: 1}),
        ("kind", {0: CREATE}, {0: CREATE, KIND: 1}),
        ("reason", {0: FREEZE}, {0: FREEZE, REASON: 1}),
        ("function", function, {**function, FUNCTION: 1}),
        ("identity", {0: MUTATE_FROZEN}, {0: MUTATE_FROZEN, IDENTITY: 1, INSTANCE: 1}),
        ("capture", function, {**function, CAPTURES + 1: 1}),
        ("last capture", {**function, CAPTURES: 16}, {**function, CAPTURES: 16, CAPTURES + 76: 1}),
        ("count of captures", function, {**function, CAPTURES: 2}),
        ("source before destination", {0: CAPTURE, SECOND: 1}, {0: CAPTURE, FIRST: 1}),
        ("captures before their count", {**function, CAPTURES: 2}, {**function, CAPTURES + 1: 1}),
    ]]


# Damages of the length of each slice of a context; scratch is as long as the slices ask.
# Those that have one length, and those that follow from what is in use.
def of_lengths():
    out = []
    for slice in CONTEXT_SLICES:
        wide, changes = slice.width > 1 and slice is not DIAGNOSTICS, [("none", lambda n, s: 0)]
        if slice not in ROOMS:
            changes += [("one short", lambda n, s: n - 1), ("one long", lambda n, s: n + 1), ("half", lambda n, s: n // 2)]
            changes += [("a record short", lambda n, s: n - s.width), ("a record long", lambda n, s: n + s.width)] * wide
        else:
            changes += [("the largest, one long", lambda n, s: most(s) + 1)]
            changes += [("a word short", lambda n, s: n - 1), ("a word long", lambda n, s: n + 1), ("a word", lambda n, s: 1),
                        ("half a record less", lambda n, s: n - s.width // 2), ("half a record more", lambda n, s: n + s.width // 2),
                        ("the largest, a word short", lambda n, s: most(s) - 1), ("the largest, a record long", lambda n, s: most(s) + s.width)] * wide
            out.append((slice.name + ": a record short", 1, short_of_one([slice])))
        for label, change in changes:
            act = resized(slice, lambda n, s=slice, change=change: change(n, s))
            out.append((slice.name + ": " + label, 1, lambda t, r, s=slice, act=act: (s not in ROOMS or least(t)[s] > 0) and act(t, r)))
    return out


# Damages that ask for more records than are lent: of effects and their order, or of functions and their context places.
# Of both slices, or of one of them while the other is long enough.
def of_rooms():
    effects, functions_ = (INTERNED, EFFECT_ORDER), (FUNCTIONS, CONTEXTS)
    captures = lambda n: field(CANDIDATES, CAPTURES, n, code(CREATE_FUNCTION))
    out = [(label + ", room for as many as before", 1, outgrown(slices, act)) for label, slices, act in [
        ("17 captures of a candidate", effects, captures(17)),
        ("captures FFFFFFFF of a candidate", effects, captures(FULL)),
        ("captures 40000000 of a candidate", effects, captures(1 << 30)),
        ("65 candidates", effects, candidates_length(lambda n: 65 * EFFECT)),
        ("interned effects FFFFFFFF", effects, count(INTERNED_COUNT, FULL)),
        ("2,048 interned effects", effects, count(INTERNED_COUNT, 2048)),
        ("2,049 interned effects", effects, count(INTERNED_COUNT, 2049)),
        ("64 functions", functions_, count(FUNCTION_COUNT, 64)),
        ("65 functions", functions_, count(FUNCTION_COUNT, 65)),
        ("functions FFFFFFFF", functions_, count(FUNCTION_COUNT, FULL)),
    ]]
    out += [(label + ", room for " + name + " as before", 1, outgrown(slices, act)) for label, both, act in [
        ("a candidate that is a Freeze becomes a Capture", effects, field(CANDIDATES, 0, CAPTURE, code(FREEZE))),
        ("an interned effect counted that is none", effects, count(INTERNED_COUNT, lambda t: interned(t) + 1)),
        ("a function more counted", functions_, count(FUNCTION_COUNT, lambda t: functions(t) + 1)),
    ] for slices, name in ((both, "as many"), (both[:1], both[0].name + " alone"), (both[1:], both[1].name + " alone"))]
    out += [("%d candidates, a record short" % n, 1, short_of_one(effects, candidates_length(lambda _, n=n: n * EFFECT))) for n in (65, 66)]
    for label, acts, both, n in [
        ("captures FFFFFFFF of a candidate", [captures(FULL)], effects, 2047),
        ("interned effects FFFFFFFF", [count(INTERNED_COUNT, FULL)], effects, 2047),
        ("2,047 interned effects", [count(INTERNED_COUNT, 2047), lambda t, r: candidates(t) > 0], effects, 2047),
        ("functions FFFFFFFF", [count(FUNCTION_COUNT, FULL)], functions_, 63),
        ("64 functions", [count(FUNCTION_COUNT, 64)], functions_, 63),
    ]:
        for slices in (both, both[:1], both[1:]):
            where = ", room for %s in %s" % (format(n, ","), " and ".join(s.name for s in slices))
            out.append((label + where, 1, together(*acts, largest(), room(slices, n))))
    return out


# Name, class and damage of every way to spoil a call.
# A class is what document 01 and DECISIONS 14 and 24 give it.
DAMAGES = [
    ("values one short", 1, length(VALUES, lambda n: n - 1)),
    ("values one long", 1, length(VALUES, lambda n: n + 1)),
    ("no values", 1, length(VALUES, lambda n: 0)),
    ("sets one short", 1, length(SETS, lambda n: n - 1)),
    ("sets one long", 1, length(SETS, lambda n: n + 1)),
    ("sets one row long", 1, length(SETS, lambda n: n + SETS.width)),
    ("513 rows", 1, rows(lambda n: 513 - n)),
    ("513 rows, the largest slices", 1, largest(rows(lambda n: 513 - n))),
    ("no slice of the context has a word", 1, lambda t, r: all([resized(s, lambda n: 0)(t, r) for s in CONTEXT_SLICES if t.lengths[s]])),
    ("output one short", 1, length(OUTPUT, lambda n: n - 1)),
    ("output one long", 1, length(OUTPUT, lambda n: n + 1)),
    ("output one effect short", 1, length(OUTPUT, lambda n: n - EFFECT)),
    ("no output", 1, length(OUTPUT, lambda n: 0)),
    ("scratch of the state one short", 1, length(SCRATCH64, lambda n: n - 1)),
    ("scratch of the state one long", 1, length(SCRATCH64, lambda n: n + 1)),
    ("no scratch of the state", 1, length(SCRATCH64, lambda n: 0)),
    ("scratch of the context one short", 1, length(SCRATCH32, lambda n: n - 1)),
    ("scratch of the context one long", 1, length(SCRATCH32, lambda n: n + 1)),
    ("no scratch of the context", 1, length(SCRATCH32, lambda n: 0)),
    ("scratch of the context as of the largest", 1, length(SCRATCH32, lambda n: SCRATCH32.count)),
    ("the largest context places, scratch as before", 1, scratch_as_before(room([CONTEXTS], CONTEXTS.count))),
    ("the largest order of the effects, scratch as before", 1, scratch_as_before(room([EFFECT_ORDER], EFFECT_ORDER.count))),
    ("the largest slices, scratch as before", 1, scratch_as_before(largest())),
    ("just enough room, scratch as before", 1, scratch_as_before(narrow())),
    ("candidates one short", 1, candidates_length(lambda n: n - 1)),
    ("candidates one long", 1, candidates_length(lambda n: n + 1)),
    ("a row more than identifiers", 1, lambda t, r: N(t) < 512 and outgrown([IDENTIFIERS], rows(lambda n: 1))(t, r)),
    ("a row less, the last identifier the lvalue", 3, lambda t, r: rows(lambda n: -1)(t, r) and t.instructions[0].lvalue[0] == N(t)),
    ("a row less, the last identifier's record not zero", 4, row_gone),
    ("no rows", 3, lambda t, r: N(t) > 0 and rows(lambda n: -n)(t, r)),
    ("65 functions", 2, count(FUNCTION_COUNT, 65)),
    ("functions FFFFFFFF", 2, count(FUNCTION_COUNT, FULL)),
    ("65 functions, the largest slices", 2, largest(count(FUNCTION_COUNT, 65))),
    ("65 functions, just enough room", 2, narrow(count(FUNCTION_COUNT, 65))),
    ("2,049 interned effects", 2, count(INTERNED_COUNT, 2049)),
    ("interned effects FFFFFFFF", 2, count(INTERNED_COUNT, FULL)),
    ("2,049 interned effects, the largest slices", 2, largest(count(INTERNED_COUNT, 2049))),
    ("interned effects FFFFFFFF, the largest slices", 2, largest(count(INTERNED_COUNT, FULL))),
    ("captures FFFFFFFF of a candidate, the largest slices", 2, largest(field(CANDIDATES, CAPTURES, FULL, code(CREATE_FUNCTION)))),
    ("captures 40000000 of a candidate, the largest slices", 2, largest(field(CANDIDATES, CAPTURES, 1 << 30, code(CREATE_FUNCTION)))),
    ("17 captures of a candidate, just enough room", 2, narrow(field(CANDIDATES, CAPTURES, 17, code(CREATE_FUNCTION)))),
    ("65 candidates, just enough room", 2, narrow(candidates_length(lambda n: 65 * EFFECT))),
    ("66 candidates, the last two with captures FFFFFFFF, just enough room", 2, narrow(too_many(anything(CREATE_FUNCTION)))),
    ("66 candidates, the last two Captures, just enough room", 2, narrow(too_many(anything(CAPTURE)))),
    ("257 diagnostics", 2, count(DIAGNOSTIC_COUNT, 257)),
    ("diagnostics FFFFFFFF", 2, count(DIAGNOSTIC_COUNT, FULL)),
    ("65 candidates", 2, candidates_length(lambda n: 65 * EFFECT)),
    ("17 context places", 2, field(FUNCTIONS, 1, 17)),
    ("33 places mutated inside", 2, field(FUNCTIONS, 2, 33)),
    ("33 places mutated inside, effects not known", 2, field(FUNCTIONS, 2, 33, lambda r: not r[0] & KNOWN)),
    ("17 captures of a key", 2, field(CACHED, 11, 17, key(CREATE_FUNCTION))),
    ("17 captures of a key that has none", 4, field(CACHED, 11, 17, lambda r: r[0] == 1 and r[1] != CREATE_FUNCTION)),
    ("next 0", 3, session(0, lambda t: 0)),
    ("next 513", 3, session(0, lambda t: 513)),
    ("next 65,536", 3, session(0, lambda t: 65536)),
    ("next FFFFFFFF", 3, session(0, lambda t: FULL)),
    ("access not in the list", 3, session(1, lambda t: N(t) + 1)),
    ("an entry at 0", 3, value(lambda t: 0, 1)),
    ("an entry past the last identifier's", 3, value(lambda t: OWN + N(t), 1)),
    ("kind 6 of an entry", 3, entry(lambda x: x | 7)),
    ("reason bit 12 of an entry", 3, entry(lambda x: x | 1 << 15)),
    ("the highest bit of an entry", 3, entry(lambda x: x | 1 << 63)),
    ("a member past the last identifier's", 3, member(1, lambda t: OWN + N(t))),
    ("options 4", 3, count(OPTIONS, 4)),
    ("flags 4 of an identifier", 3, field(IDENTIFIERS, 0, 4)),
    ("name 513 of an identifier", 3, field(IDENTIFIERS, 1, 513)),
    ("flags 4 of a function", 3, field(FUNCTIONS, 0, 4)),
    ("tracked, effects not known", 3, field(FUNCTIONS, 0, 2)),
    ("mutated inside, effects not known", 3, field(FUNCTIONS, 0, 0, lambda r: r[2] > 0)),
    ("mutated inside not in the list", 3, field(FUNCTIONS, 3, N, lambda r: r[2] > 0)),
    ("a context place not in the list", 3, field(CONTEXTS, 0, N, lambda r: any(r))),
    ("a context place's effect 8", 3, field(CONTEXTS, 1, 8, lambda r: any(r))),
    ("a link's flag 2", 3, field(LINKS, 0, 2)),
    ("a link's function not in the list", 3, field(LINKS, 1, functions, lambda r: r[0] == 1)),
    ("a key's flag 2", 3, field(CACHED, 0, 2, lambda r: r[0] == 1)),
    ("a key of a Freeze", 3, field(CACHED, 1, FREEZE, lambda r: r[0] == 1)),
    ("a key's code 20", 3, field(CACHED, 1, 20, lambda r: r[0] == 1)),
    ("a key without its source", 3, field(CACHED, 2, 0, lambda r: r[2] == 1)),
    ("a key's source flag 2", 3, field(CACHED, 2, 2, lambda r: r[2] == 1)),
    ("a key's source not in the list", 3, field(CACHED, 3, N, lambda r: r[2] == 1)),
    ("a key without its destination", 3, field(CACHED, 4, 0, lambda r: r[4] == 1)),
    ("a key's destination not in the list", 3, field(CACHED, 5, N, lambda r: r[4] == 1)),
    ("kind 6 of a key", 3, field(CACHED, 6, 6, key(CREATE))),
    ("reason 12 of a key", 3, field(CACHED, 7, 12, key(CREATE))),
    ("a key without its function", 3, field(CACHED, 8, 0, key(CREATE_FUNCTION))),
    ("a key's function not in the list", 3, field(CACHED, 9, functions, key(CREATE_FUNCTION))),
    ("a key's capture not in the list", 3, field(CACHED, 12, N, lambda r: r[11] > 0)),
    ("a diagnostic's identity 256", 3, field(DIAGNOSTICS, 0, 256)),
    ("a diagnostic's identifier not in the list", 3, field(DIAGNOSTICS, 1, N)),
    ("message case 2", 3, field(DIAGNOSTICS, 2, 2)),
    ("sentence 11", 3, field(DIAGNOSTICS, 3, 11, lambda r: r[2] == 0)),
    ("name 513 of a diagnostic", 3, field(DIAGNOSTICS, 4, 513)),
    ("an interned Apply", 3, field(INTERNED, 0, APPLY)),
    ("a candidate of code 18 with anything in it, just enough room", 3, narrow(unknown(18))),
    ("a candidate of code FFFFFFFF with anything in it, just enough room", 3, narrow(unknown(FULL))),
    ("an interned effect not counted, which is not the last of the order", 3, uncounted_effect(False)),
    ("lvalue not in the list", 3, lvalue(0, N)),
    ("lvalue's effect 8", 3, lvalue(1, lambda t: 8)),
    ("lvalue reactive 2", 3, lvalue(2, lambda t: 2)),
    ("own function not in the list", 3, own(lambda t: functions(t) + 1)),
    ("own function FFFFFFFF", 3, own(lambda t: FULL)),
    ("reasons without an entry", 4, value(lambda t: 1, 8)),
    ("reasons at number 0", 4, value(lambda t: 0, 16)),
    ("an entry at next", 4, value(lambda t: next_number(t) if next_number(t) < OWN else -1, 1)),
    ("a member at next", 4, member(1, lambda t: next_number(t) if next_number(t) < OWN else 0)),
    ("a member of a row that is not defined", 4, member(0, lambda t: 5)),
    ("the last word of a row that is not defined", 4, member(0, lambda t: 1023)),
    ("access of one not hoisted", 4, field(IDENTIFIERS, 2, 1, lambda r: not r[0] & HOISTED)),
    ("access end of one not hoisted", 4, field(IDENTIFIERS, 3, FULL, lambda r: not r[0] & HOISTED)),
    ("after the last identifier", 4, after(IDENTIFIERS)),
    ("after the last function", 4, after(FUNCTIONS)),
    ("after the last function's context", 4, after(CONTEXTS)),
    ("after the last link", 4, after(LINKS)),
    ("after the last key", 4, after(CACHED)),
    ("after the last diagnostic", 4, after(DIAGNOSTICS)),
    ("after the last interned effect", 4, after(INTERNED)),
    ("the last word of identifiers", 4, last_word(IDENTIFIERS)),
    ("the last word of functions", 4, last_word(FUNCTIONS)),
    ("the last word of context places", 4, last_word(CONTEXTS)),
    ("the last word of the largest identifiers", 4, largest(last_word(IDENTIFIERS))),
    ("the last word of the largest functions", 4, largest(last_word(FUNCTIONS))),
    ("the last word of the largest context places", 4, largest(last_word(CONTEXTS))),
    ("the last word of links", 4, last_word(LINKS)),
    ("the last word of keys", 4, last_word(CACHED)),
    ("the last word of diagnostics", 4, last_word(DIAGNOSTICS)),
    ("the last word of effects", 4, last_word(INTERNED)),
    ("the last word of the largest effects", 4, largest(last_word(INTERNED))),
    ("the last word of their largest order", 4, largest(last_word(EFFECT_ORDER))),
    ("the last word of effects, just enough room", 4, lambda t, r: narrow()(t, r) and last_word(INTERNED)(t, r)),
    ("an interned effect not counted, the last of the order", 4, uncounted_effect(True)),
    ("an interned effect not counted, not in the order", 4, left_over),
    ("a diagnostic not counted", 4, lambda t, r: diagnostics(t) - 1 not in named(t) and uncounted(DIAGNOSTICS, DIAGNOSTIC_COUNT)(t, r)),
    ("a diagnostic counted that is none", 4, lambda t, r: N(t) > 0 and count(DIAGNOSTIC_COUNT, diagnostics(t) + 1)(t, r)),
    ("a word after the places mutated inside", 4, field(FUNCTIONS, 162, 1, lambda r: r[2] < MAX_MUTATED)),
    ("a word after the context places", 4, field(CONTEXTS, 79, 1, lambda r: not any(r[75:]))),
    ("a function of no link", 4, field(LINKS, 1, 1, lambda r: r[0] == 0)),
    ("a link of number 0", 4, word(LINKS, 0, 1)),
    ("a key of number 0", 4, word(CACHED, 0, 1)),
    ("a code of no key", 4, field(CACHED, 1, CREATE, lambda r: r[0] == 0)),
    ("kind of a key that has none", 4, field(CACHED, 6, 1, key(CREATE_FROM, CREATE_FUNCTION, KEY_ASSIGN_FROZEN, KEY_ASSIGN_COPY))),
    ("identity of a key", 4, field(CACHED, 10, 1, lambda r: r[0] == 1)),
    ("a key's last capture, not counted", 4, field(CACHED, 27, 1, lambda r: r[0] == 1 and r[11] < 16)),
    ("a diagnostic twice", 4, repeated(DIAGNOSTICS, DIAGNOSTIC_COUNT)),
    ("an identity out of turn", 4, misnumbered),
    ("sentence of case 1", 4, field(DIAGNOSTICS, 3, 1, lambda r: r[2] == 1)),
    ("access label of case 0", 4, field(DIAGNOSTICS, 5, 1, lambda r: r[2] == 0)),
    ("an interned effect twice", 4, doubled(lambda t, words: words)),
    ("an interned effect twice, the other span of its source", 4, doubled(raised(FIRST + 3, *MUTATIONS, *FLOWS, FREEZE, RENDER, *DIAGNOSED))),
    ("an interned effect twice, the other span of its destination", 4, doubled(raised(SECOND + 4, *FLOWS, CREATE, CREATE_FUNCTION))),
    ("an interned effect twice, the other span of a capture", 4, doubled(lambda t, words: raised(CAPTURES + 4, CREATE_FUNCTION)(t, words) if words[CAPTURES] else None)),
    ("a Mutate twice, with a reason and without", 4, doubled(with_reason)),
    ("an Impure twice, with two diagnostics", 4, doubled(with_diagnostic)),
    ("an interned effect twice, the other without a place in the order", 4, repeated(INTERNED, INTERNED_COUNT)),
    ("the first candidate an Apply", 5, applied(lambda n, rng: 0, False)),
    ("the last candidate an Apply", 5, applied(lambda n, rng: n - 1, False)),
    ("a candidate an Apply with anything in it", 5, applied(lambda n, rng: rng.randrange(n), True)),
    ("the last candidate an Apply with anything in it", 5, applied(lambda n, rng: n - 1, True)),
    ("every candidate an Apply", 5, all_applied),
    ("a candidate an Apply with anything in it, just enough room", 5, narrow(applied(lambda n, rng: rng.randrange(n), True))),
    ("every candidate an Apply, just enough room", 5, narrow(all_applied)),
] + of_order("order", EFFECT_ORDER, INTERNED, interned) + of_parts()
DAMAGES += of_order("key order", KEY_ORDER, CACHED, next_number) + of_key_parts() + of_keys() + of_lengths() + of_rooms()
DAMAGES += of_effects("interned", INTERNED) + of_effects("candidate", CANDIDATES)

# Two damages in places that do not meet: the lower class wins.
# Named by their names above.
PAIRS = [
    ("values one short", "65 functions"), ("candidates one long", "next 0"), ("output one short", "the last word of effects"),
    ("scratch of the state one long", "the first candidate an Apply"), ("65 functions", "next 0"),
    ("2,049 interned effects", "the last word of links"), ("257 diagnostics", "the first candidate an Apply"),
    ("options 4", "the last word of effects"), ("next 513", "the last word of effects"), ("options 4", "the first candidate an Apply"),
    ("own function not in the list", "a candidate an Apply with anything in it"), ("lvalue's effect 8", "reasons without an entry"),
    ("the last word of effects", "the first candidate an Apply"), ("after the last diagnostic", "the last candidate an Apply"),
    ("reasons at number 0", "a candidate an Apply with anything in it"), ("65 functions", "order: a place not in the list"),
    ("order: a place FFFFFFFF", "the last word of effects"), ("options 4", "order: two places exchanged"),
    ("order: a place not in the list", "the first candidate an Apply"), ("order: two places exchanged", "the first candidate an Apply"),
    ("keys: 512 counted", "next 0"), ("65 functions", "key order: a place not in the list"), ("key order: a place FFFFFFFF", "the last word of effects"),
    ("options 4", "key order: two places exchanged"), ("key order: two places exchanged", "keys: 600 counted"), ("key order: two places exchanged", "the first candidate an Apply"),
    ("keys: one left out and not counted", "the first candidate an Apply"), ("keys: one left out and not counted", "order: a place not in the list"),
    ("17 captures of a key", "keys: one less counted"), ("keys: 512 counted", "output one short"),
]


# ------------------------------------------------------------ making the list

# A copy of a job with its first instruction alone.
# What it must answer is put in afterwards.
def base(lent):
    out = Lent()
    first = lent.instructions[0]
    out.lengths, out.flag, out.session = dict(lent.lengths), lent.flag, list(lent.session)
    out.counts, out.tables = dict(lent.counts), {s: dict(table) for s, table in lent.tables.items()}
    instruction = Instruction(list(first.lvalue), first.own, first.length)
    instruction.tables[CANDIDATES] = dict(first.tables[CANDIDATES])
    out.instructions = [instruction]
    return out


# The words of a table that stand before a length.
# A shorter list is lent without the rest.
def cut(table, n):
    return {k: x for k, x in table.items() if k < n}


# A damaged job whole: nothing stands past the lengths, and at the end all is as before, effects and their order by their places.
# "After a refusal state, context and session are as before; output list and scratch are zero."
def refused(lent, number):
    lent.tables = {s: cut(table, words_of_length(s, lent.lengths[s])) for s, table in lent.tables.items()}
    instruction = lent.instructions[0]
    instruction.tables[CANDIDATES] = cut(instruction.tables[CANDIDATES], instruction.length)
    instruction.refusal = number
    lent.end = End(lent.flag, lent.session)
    lent.end.counts, lent.end.tables = lent.counts, lent.tables
    return lent


# One damaged job, or none where a damage does not apply to it; the slices have the room for it, unless their length is the damage.
# The stated class must be the one that the plain test finds.
def damaged(lent, acts, expected, name, rng):
    out = base(lent)
    for act in acts:
        if not act(out, rng):
            return None
        if expected > 1:
            widen(out)
    found = call_class(out)
    if found != expected:
        raise ValueError("%s: stated %d, found %d" % (name, expected, found))
    return refused(out, expected)


# Every damage on some jobs by chance, in the order of the table.
# A damage that applies to no job is an error.
def damaged_jobs(jobs, seed=505, times=3, most=900):
    rng, out = random.Random(seed), []
    small = [j for j in jobs if j.instructions and len(job_words(j)) <= most]
    stated = {name: (expected, act) for name, expected, act in DAMAGES}
    wanted = [(name, expected, [act]) for name, expected, act in DAMAGES]
    for a, b in PAIRS:
        wanted.append((a + " + " + b, min(stated[a][0], stated[b][0]), [stated[a][1], stated[b][1]]))
    for name, expected, acts in wanted:
        made = []
        for j in rng.sample(small, len(small)):
            job = damaged(j, acts, expected, name, rng)
            if job is not None:
                made.append((name, job))
            if len(made) == times:
                break
        if not made:
            raise ValueError("%s: applies to no job" % name)
        out += made
    return out
