"""A library job as lent words: the slices of `lent_layout/specs/Context.antt` and `Layout.antt`, of `lent_values` and of `lent_sets`.

A table is a dictionary from an index to the word there; what is missing is zero. Tables are held by the slice that they stand in, and a job made
of them is written as runs of words. What an effect is in words stands in one part of this module: nothing else here knows more of it than its width.
"""

from collections import namedtuple

from names import *

# A slice that is lent: how many records it can have, and how many words a record has.
Slice = namedtuple("Slice", "name count width")

EFFECT, KEY = 98, 28
# A state: words of 64 bits.
VALUES, SETS = Slice("values", 1024, 1), Slice("sets", 512, 16)
# A context, in the order in which a job has them.
IDENTIFIERS, FUNCTIONS, CONTEXTS = Slice("identifiers", 512, 4), Slice("functions", 64, 163), Slice("contexts", 64, 80)
LINKS, CACHED, KEY_ORDER = Slice("links", 512, 2), Slice("keys", 512, KEY), Slice("key order", 512, 1)
INTERNED, EFFECT_ORDER, DIAGNOSTICS = Slice("effects", 2048, EFFECT), Slice("effect order", 2048, 1), Slice("diagnostics", 256, 9)
CONTEXT_SLICES = (IDENTIFIERS, FUNCTIONS, CONTEXTS, LINKS, CACHED, KEY_ORDER, INTERNED, EFFECT_ORDER, DIAGNOSTICS)
# What else is lent to a call.
CANDIDATES, OUTPUT = Slice("candidates", 64, EFFECT), Slice("output", 1120, EFFECT)
SCRATCH64, SCRATCH32 = Slice("scratch64", 9216, 1), Slice("scratch32", 23040, 1)
# The slices whose lengths a job says, in that order.
LENT_SLICES = (VALUES, SETS, *CONTEXT_SLICES, OUTPUT, SCRATCH64, SCRATCH32)
# Those of a context whose length follows from what is in use and from what the instruction can need; all others of a context have one length.
ROOMS = (INTERNED, EFFECT_ORDER, IDENTIFIERS, FUNCTIONS, CONTEXTS)
# Those of a context that are saved to scratch.
SAVED = (CONTEXTS, LINKS, CACHED, KEY_ORDER, EFFECT_ORDER)
# The effects of a context with the order of their keys: at the end of a job these are recorded by their keys.
NUMBERED = (INTERNED, EFFECT_ORDER)
# The numbers of a context beside its slices, in the order in which a job has them.
COUNTS = OPTIONS, FUNCTION_COUNT, INTERNED_COUNT, KEY_COUNT, DIAGNOSTIC_COUNT = ("options", "function count", "effect count", "key count", "diagnostic count")
# Codes of keys that hold a source.
WITH_SOURCE = (CREATE_FROM, KEY_ASSIGN_FROZEN, KEY_ASSIGN_COPY)


class NotLent(ValueError):
    """A recorded job that cannot be lent; it is reported, nothing is guessed."""


# The numbers of an empty context.
# Options and counts.
def no_counts():
    return dict.fromkeys(COUNTS, 0)


# The tables of an empty state and context.
# Each is zero.
def no_tables():
    return {s: {} for s in (VALUES, SETS, *CONTEXT_SLICES)}


class Lent:
    """One job: what is lent at first, its instructions with what they must answer, and what stands at the end."""

    # An empty job.
    # Filled by `of_job`, and by damages.
    def __init__(self):
        self.lengths, self.flag, self.session = {}, 0, []
        self.counts, self.tables = no_counts(), no_tables()
        self.instructions, self.end = [], None

    # How many identifiers the sets have rows for.
    # Their length counts them (DECISIONS 13).
    def identifiers(self):
        return self.lengths[SETS] // SETS.width


class Instruction:
    """An instruction as it is lent, and what the call must answer."""

    # Place and own function by value; tables of the candidates and of the output list, zero at first.
    # The length of the candidates is a number of its own, so that it can be wrong.
    def __init__(self, lvalue, own, length):
        self.lvalue, self.own, self.length = lvalue, own, length
        self.refusal, self.count, self.entries, self.tables = 0, 0, 0, {CANDIDATES: {}, OUTPUT: {}}


class End:
    """What stands after the last instruction. Effects are given by their keys, or, where they are none, they stand in the tables with their order."""

    # Counts and tables are zero at first, as those of a job.
    # Effects that are given ascend by their keys.
    def __init__(self, flag, session, effects=None):
        self.flag, self.session, self.effects = flag, session, effects
        self.counts, self.tables = no_counts(), no_tables()


# Puts words into a table from an index on.
# Zeros are left out, so that equal tables are equal dictionaries.
def put(table, at, words):
    for k, x in enumerate(words):
        table.pop(at + k, None)
        if x:
            table[at + k] = x


# The first word of a record of a slice.
# Records stand one after the other.
def at(slice, record):
    return record * slice.width


# Puts a record into its slice.
# Tables are held by their slices.
def put_record(tables, slice, record, words):
    put(tables[slice], at(slice, record), words)


# Words of a record of a slice.
# For tests and damages.
def record_of(tables, slice, record):
    table, start = tables[slice], at(slice, record)
    return [table.get(start + k, 0) for k in range(slice.width)]


# How long a slice of so many words is.
# Diagnostics are counted in records, all others in words.
def length_of(slice, words):
    return words // slice.width if slice is DIAGNOSTICS else words


# How many words a slice of a length has.
# The other way round.
def words_of_length(slice, length):
    return length * slice.width if slice is DIAGNOSTICS else length


# ------------------------------------------------------------ effects in words

# Words of an effect's record: code, places, and so on; last the count of captures and the captures.
FIRST, SECOND, KIND, REASON, MUTATION, FUNCTION, IDENTITY, INSTANCE, CAPTURES = 1, 6, 11, 12, 13, 14, 15, 16, 17
# How many effects one of a code can derive, and they in turn, captures apart (`laws_room` `Room.antt`: `derives`).
DERIVES = {**dict.fromkeys(MUTATIONS, 1), CAPTURE: 2, ALIAS: 2, MAYBE_ALIAS: 1, ASSIGN: 1, CREATE_FROM: 1}


# The record of an effect of an answer.
# Its words stand in the same order.
def effect_words(e):
    out = [e["code"], *e["first"], *e["second"], e["kind"], e["reason"], e["mutation"], e["function"], e["identity"], e["instance"]]
    out.append(len(e["captures"]))
    for place in e["captures"]:
        out += place
    return out + [0] * (EFFECT - len(out))


# The record of a candidate of an image, with its places by value.
# `identity` gives that of a diagnostic's instance.
def candidate_words(c, places, identity):
    code, first, second, kind, reason, function, run, count = c
    out = [0] * EFFECT
    out[0] = code
    if code not in (CREATE, CREATE_FUNCTION):
        out[FIRST:FIRST + 5] = places[first]
    if code in FLOWS or code in (CREATE, CREATE_FUNCTION):
        out[SECOND:SECOND + 5] = places[second]
    out[REASON], out[FUNCTION] = reason, function
    if code == CREATE:
        out[KIND] = kind
    if code == MUTATE:
        out[MUTATION] = kind
    if code in DIAGNOSED:
        out[IDENTITY], out[INSTANCE] = identity(kind), kind
    if code == CREATE_FUNCTION:
        out[CAPTURES] = count
        for k, place in enumerate(places[run:run + count]):
            out[CAPTURES + 1 + 5 * k:CAPTURES + 6 + 5 * k] = place
    return out


# The key of an effect's record as numbers: code, source, destination, kind, reason, function, identity, captures.
# KeyOrder.antt: absent is 0 and n is n + 1; such lists are compared as Python compares them. Not in it: Mutate's reason, Impure's diagnostic.
def effect_key(words):
    code, makes = words[0], words[0] in (CREATE, CREATE_FUNCTION)
    source = 0 if makes else words[FIRST] + 1
    into = words[SECOND] + 1 if makes or code in FLOWS else 0
    function = words[FUNCTION] + 1 if code == CREATE_FUNCTION else 0
    identity = words[IDENTITY] if code in (MUTATE_FROZEN, MUTATE_GLOBAL) else 0
    captures = [words[CAPTURES + 1 + 5 * k] for k in range(min(words[CAPTURES], MAX_CAPTURES))]
    return [code, source, into, words[KIND], words[REASON], function, identity, *captures]


# The most effects that the step of a candidate interns, by its record.
# Room.antt: `need`; what is no code, and an Apply, reads as a Render, which derives nothing.
def need(words):
    return 1 + DERIVES.get(words[0], 0) + 4 * (words[CAPTURES] if words[0] == CREATE_FUNCTION else 0)


# A list of effects as a table of a slice.
# One record after the other; candidates, interned effects and output lists.
def put_effects(tables, slice, effects):
    for k, words in enumerate(effects):
        put_record(tables, slice, k, words)


# The table of one effect alone.
# As the end of a job has it.
def effect_table(words):
    out = {}
    put(out, 0, words)
    return out


# ------------------------------------------------------------ parts of a job

# The values of a state: 1 + kind in the low bits, the reasons above.
# `word_of` of Cells.antt.
def values_of(values):
    return {n: reasons * 8 + kind + 1 for n, kind, reasons in values}


# The sets of a state as words: bit 0 says defined, bit v that v is in it.
# Rows.antt; value 0 of a recorded pair is no value.
def sets_of(sets):
    out = {}
    for i, numbers in sets:
        row = 1
        for n in numbers:
            row |= 1 << n
        put(out, at(SETS, i), [row >> (64 * w) & 0xFFFFFFFFFFFFFFFF for w in range(SETS.width)])
    return out


# Recorded pairs as sets.
# An identifier with the pair 0 is defined and empty.
def sets_of_pairs(pairs):
    sets = {}
    for i, n in pairs:
        sets.setdefault(i, []).extend([n] if n else [])
    return sorted(sets.items())


# The key of a number's record as numbers, in the same order.
# Such lists are compared like those of effects; a count of captures above the limit is refused on its own.
def cached_key(words):
    optional = lambda k: words[k + 1] + 1 if words[k] else 0
    return [words[1], optional(2), optional(4), words[6], words[7], optional(8), words[10], *words[12:12 + words[11]]]


# A cached key: there, code, source, destination, kind, reason, function, no identity, captures.
# KeyRecords.antt; a number that may be absent has two words.
def key_words(code, source, into, kind, reason, function, captures):
    from_ = [1, source] if code in WITH_SOURCE else [0, 0]
    made = [1, function] if code == CREATE_FUNCTION else [0, 0]
    out = [1, code, *from_, 1, into, kind, reason, *made, 0, len(captures), *captures]
    return out + [0] * (KEY - len(out))


# Identities of the diagnostics of a job, as they first appear.
# Case 0 is told apart by its sentence, case 1 by its name (DECISIONS 6).
def identities(diagnostics):
    seen, out = {}, []
    for d in diagnostics:
        out.append(seen.setdefault((d[0], d[1], d[2] if d[1] == 0 else d[3]), len(seen)))
    return out


# Puts what no instruction changes.
# Options, identifiers, functions but for their context places.
def put_fixed(lent, job):
    places = job["places"]
    lent.counts[OPTIONS], lent.counts[FUNCTION_COUNT] = job["head"][1], len(job["functions"])
    for i, words in enumerate(job["identifiers"]):
        put_record(lent.tables, IDENTIFIERS, i, words)
    for f, (flags, _, count, inside, mutated) in enumerate(job["functions"]):
        put_record(lent.tables, FUNCTIONS, f, [flags, count, mutated])
        for k, place in enumerate(places[inside:inside + mutated]):
            put(lent.tables[FUNCTIONS], at(FUNCTIONS, f) + 3 + 5 * k, place)


# Puts the context places of the functions, with other Effects where some are given.
# An answer says only those.
def put_places(lent, job, effects=None):
    for f, (_, first, count, _, _) in enumerate(job["functions"]):
        for k, place in enumerate(job["places"][first:first + count]):
            words = list(place)
            if effects is not None:
                words[1] = effects[f][k]
            put(lent.tables[CONTEXTS], at(CONTEXTS, f) + 5 * k, words)


# Puts the count of cached keys, given as (number, words), and their order.
# Place j of the order holds the number whose key comes j-th.
def put_key_order(lent, keys):
    lent.counts[KEY_COUNT] = len(keys)
    put(lent.tables[KEY_ORDER], 0, [n for n, _ in sorted(keys, key=lambda k: cached_key(k[1]))])


# Puts links, and cached keys with their order, of fresh numbers below next.
# Others cannot be lent.
def put_numbers(lent, links, keys, next_number):
    for n, function in links:
        if not 0 < n < min(next_number, OWN):
            raise NotLent("link of number %d, next is %d" % (n, next_number))
        put_record(lent.tables, LINKS, n, [1, function])
    for n, words in keys:
        if not 0 < n < min(next_number, OWN):
            raise NotLent("key of number %d, next is %d" % (n, next_number))
        put_record(lent.tables, CACHED, n, words)
    if len({tuple(cached_key(words)) for _, words in keys}) < len(keys):
        raise NotLent("two cached numbers of one key")
    put_key_order(lent, keys)


# Puts the diagnostics with their identities.
# Nine words each, and their count.
def put_diagnostics(lent, records):
    lent.counts[DIAGNOSTIC_COUNT] = len(records)
    for k, words in enumerate(records):
        put_record(lent.tables, DIAGNOSTICS, k, words)


# Puts interned effects in the order of their numbers, their count, and the order of their keys.
# Place j of the order holds the number of the effect that comes j-th.
def put_interned(lent, effects):
    lent.counts[INTERNED_COUNT] = len(effects)
    put_effects(lent.tables, INTERNED, effects)
    put(lent.tables[EFFECT_ORDER], 0, sorted(range(len(effects)), key=lambda k: effect_key(effects[k])))


# The recorded keys of a job, as (number, words).
# The captures' identifiers come from its places.
def job_keys(job):
    out = []
    for code, source, into, kind, reason, function, run, count, n in job["cached"]:
        captures = [p[0] for p in job["places"][run:run + count]]
        out.append((n, key_words(code, source, into, kind, reason, function, captures)))
    return out


# Puts the context that a job begins with.
# All its slices and counts.
def put_first(lent, job):
    ids = identities(job["diagnostics"])
    put_fixed(lent, job)
    put_places(lent, job)
    put_numbers(lent, job["links"], job_keys(job), job["head"][3])
    put_diagnostics(lent, [[ids[k], *d] for k, d in enumerate(job["diagnostics"])])
    put_interned(lent, [candidate_words(c, job["places"], ids.__getitem__) for c in job["interned"]])


# Puts the context at a job's end, but for its interned effects and their order; their count stands.
# They are recorded by their keys and not by their numbers.
def put_last(end, job, answer):
    put_fixed(end, job)
    put_places(end, job, answer["functions"])
    keys = [(n, key_words(*fixed, captures)) for (n, *fixed), captures in answer["cached"]]
    put_numbers(end, answer["links"], keys, answer["next"])
    put_diagnostics(end, answer["diagnostics"])
    end.counts[INTERNED_COUNT] = len(answer["interned"])


# The instructions of a job with their answers.
# A diagnostic is an instance of the table as it stands, which is a part of the last one.
def instructions_of(job, answer):
    identity = lambda k: answer["diagnostics"][k][0]
    out = []
    for (lvalue, own, candidates), (result, entries, effects) in zip(job["instructions"], answer["results"]):
        i = Instruction(job["places"][lvalue], own, len(candidates) * EFFECT)
        put_effects(i.tables, CANDIDATES, [candidate_words(c, job["places"], identity) for c in candidates])
        i.refusal, i.count, i.entries = result, len(effects), entries
        put_effects(i.tables, OUTPUT, [effect_words(e) for e in effects])
        out.append(i)
    return out


# ------------------------------------------------------------ lengths

# How many records each of the slices of ROOMS has to have for an instruction, by the counts as they stand, whatever they are.
# `call_outcome` `Calls.antt`: `context_wrong`, `room_for`.
def least_records(lent, effects):
    functions = min(lent.counts[FUNCTION_COUNT], MAX_FUNCTIONS)
    effects = min(effects, MAX_INTERNED)
    return {IDENTIFIERS: lent.identifiers(), FUNCTIONS: functions, CONTEXTS: functions, INTERNED: effects, EFFECT_ORDER: effects}


# The scratch of a context has as many words as all that is saved; no more of a slice than it can have.
# `call_undo` `Saves.antt`: `saved_words`.
def fit_scratch(lent):
    lent.lengths[SCRATCH32] = sum(min(lent.lengths[s], s.count * s.width) for s in SAVED)


# Right lengths for n identifiers and as many records of the slices of ROOMS as a function says, by the slice.
# DECISIONS 13, 25 and 40; all other lengths are fixed, but for scratch, which follows.
def put_lengths(lent, n, records):
    lent.lengths = {s: length_of(s, s.count * s.width) for s in LENT_SLICES}
    lent.lengths[SETS], lent.lengths[SCRATCH64] = n * SETS.width, VALUES.count + n * SETS.width
    for s in ROOMS:
        lent.lengths[s] = min(records(s), s.count) * s.width
    fit_scratch(lent)


# The most effects that an instruction interns.
# Room.antt: `needs`; a candidate past the 64th reads as zeros.
def needs(instruction):
    count = instruction.length // EFFECT
    found = [record_of(instruction.tables, CANDIDATES, k) for k in range(min(count, MAX_CANDIDATES))]
    return sum(map(need, found)) + max(0, count - MAX_CANDIDATES) * need([0] * EFFECT)


# For how many effects there has to be room, for each instruction of a job when it comes; for a job of one just what it needs.
# A refused one interns nothing, and none leaves more than stand at the end.
def enough_room(lent, last):
    count = room = lent.counts[INTERNED_COUNT]
    for i in lent.instructions:
        room = max(room, count + needs(i))
        if i.refusal == 0:
            count = min(count + needs(i), last)
    return room


# The lengths of a recorded job, by its number in the list: a digit of it to the base 4 for each slice of ROOMS, the lowest first.
# 0 and 1: just as long as suffices; 2: a record more; 3: the largest.
def lend_room(lent, number, last):
    just = least_records(lent, enough_room(lent, last))
    spare = {s: (0, 0, 1, s.count)[number // 4 ** k % 4] for k, s in enumerate(ROOMS)}
    put_lengths(lent, lent.identifiers(), lambda s: just[s] + spare[s])


# A recorded job with its answer as a lent one.
# The whole conversion.
def of_job(job, answer):
    out, head = Lent(), job["head"]
    if [d[0] for d in answer["diagnostics"]][:len(job["diagnostics"])] != identities(job["diagnostics"]):
        raise NotLent("identities of diagnostics")
    put_lengths(out, len(job["identifiers"]), lambda s: s.count)
    out.flag, out.session = head[2], head[3:8]
    out.tables[VALUES], out.tables[SETS] = values_of(job["values"]), sets_of(sets_of_pairs(job["pairs"]))
    put_first(out, job)
    out.instructions = instructions_of(job, answer)
    interned = sorted((effect_words(e) for e in answer["interned"]), key=effect_key)
    if any(effect_key(a) == effect_key(b) for a, b in zip(interned, interned[1:])):
        raise NotLent("two interned effects of one key")
    out.end = end = End(answer["flag"], [answer["next"], *answer["access"], answer["walked"]], effects=interned)
    end.tables[VALUES], end.tables[SETS] = values_of(answer["values"]), sets_of(answer["sets"])
    put_last(end, job, answer)
    return out


# ------------------------------------------------------------ words of a file

# A table as runs: count, then each run's first index, length and words.
# A short gap costs less than another run.
def runs(table, wide=False):
    found, gap = [], 1 if wide else 2
    for k in sorted(table):
        if found and k - found[-1][1] <= gap + 1:
            found[-1][1] = k
        else:
            found.append([k, k])
    out = [len(found)]
    for first, last in found:
        out += [first, last - first + 1]
        for k in range(first, last + 1):
            x = table.get(k, 0)
            out += [x & 0xFFFFFFFF, x >> 32] if wide else [x]
    return out


# Several tables, one after the other.
# Those of a state are of 64 bits.
def tables_words(tables, slices):
    return sum((runs(tables[s], s in (VALUES, SETS)) for s in slices), [])


# The numbers and the tables of a state and a context, of the slices given.
# As at the beginning of a job, so at its end.
def context_words(part, slices):
    return tables_words(part.tables, (VALUES, SETS)) + [part.counts[k] for k in COUNTS] + tables_words(part.tables, slices)


# The words of an instruction.
# Lent first, then what it must answer.
def instruction_words(i):
    lent = [*i.lvalue, i.own, i.length, *tables_words(i.tables, (CANDIDATES,))]
    return lent + [i.refusal, i.count, i.entries, *tables_words(i.tables, (OUTPUT,))]


# The words of an end; its interned effects along their order, each a table, or, after a 1, as they stand in their slices.
# As in the head, then the tables.
def end_words(e):
    out = [e.flag, *e.session, *context_words(e, [s for s in CONTEXT_SLICES if s not in NUMBERED])]
    if e.effects is None:
        return out + [1, *tables_words(e.tables, NUMBERED)]
    out += [0, len(e.effects)]
    for words in e.effects:
        out += runs(effect_table(words))
    return out


# The words of a job.
# Lengths, flag, session, count of instructions, tables, instructions, end.
def job_words(lent):
    out = [*(lent.lengths[s] for s in LENT_SLICES), lent.flag, *lent.session, len(lent.instructions)]
    out += context_words(lent, CONTEXT_SLICES)
    for i in lent.instructions:
        out += instruction_words(i)
    return out + end_words(lent.end)


# A list of jobs as words.
# Each with the count of its words in front, so that it is read piece by piece.
def list_words(jobs):
    out = [len(jobs)]
    for lent in jobs:
        words = job_words(lent)
        out += [len(words)] + words
    return out
