"""Damaged images, each with the refusal that document 01 states.

The refusals stand in the tables below, written by hand from document 01 ("paper")
and the readings; the comment over each group cites the sentence. model.py is only
used to compare (`python3 damage.py` prints differences).
"""

import random
import sys

sys.dont_write_bytecode = True

from image import HEADER, RECORD_WORDS, Image
from model import refusal
from names import *
from words import pack, unpack
from world import *

IDENTIFIERS, VALUES, PAIRS, PLACES, FUNCTIONS, CANDIDATES = range(6)

# ---------------------------------------------------------------- valid bases


# Fills in the identifiers and the state of a rich base.
# Every sort of identifier and of set occurs at least once.
def rich_state(im, rng):
    spans = [(7, 9), (1, 0), (NO, 3), (40, 44)]
    im.ident(name=rng.randrange(1, 513))
    im.ident(access=rng.choice(spans), name=rng.choice([0, 2, 512]))
    im.ident(ref=True, access=NO_SPAN)
    im.ident(ref=True)
    im.plain(rng.randrange(1, 4))
    for _ in range(rng.randrange(2, 5)):
        im.value(im.fresh(), rng.randrange(6), rng.randrange(1, 0x1000))
    im.value(OWN + 1, rng.randrange(6), 0)
    im.value(OWN + len(im.identifiers) - 1, MUTABLE, 1 << R_OTHER)
    im.points(0, [1, 2, OWN + 1])
    im.points(1, [])
    im.points(2, [rng.choice([1, 2, OWN])])
    im.points(len(im.identifiers) - 1, [2, OWN + len(im.identifiers) - 1])


# Fills in places and functions of a rich base.
# The last place names the last identifier, so a shorter identifier list is noticed.
def rich_places(im, rng):
    last = len(im.identifiers) - 1
    spans = [NO_SPAN, (1, 2), (9, 4)]
    pick = lambda: (rng.randrange(last + 1), rng.randrange(8), rng.randrange(2), rng.choice(spans))
    context = im.run([pick() for _ in range(rng.randrange(1, 4))])
    mutated = im.run([pick() for _ in range(rng.randrange(1, 4))])
    im.function(context, mutated, KNOWN | TRACKED)
    im.function(flags=rng.choice([0, KNOWN]))
    im.function(im.run([pick()]), flags=0)
    for _ in range(rng.randrange(2, 6)):
        im.place(*pick())
    im.place(last, E_STORE, 1, (3, 4))


# Adds one candidate of every code that an image can hold, in any order.
# CreateFunction comes with and without captures; no used word is zero by need.
def rich_candidates(im, rng):
    place = lambda: rng.randrange(1, len(im.places))
    first = rng.randrange(1, len(im.places) - 2)
    all_codes = [freeze(place(), rng.randrange(1, 12)), mutate(place(), 1),
                 create(place(), rng.randrange(1, 6), rng.randrange(1, 12)),
                 create_function(place(), 0, (first, rng.randrange(1, 3))),
                 create_function(place(), 1)]
    all_codes += [one_place(code, place()) for code in ONE_PLACE]
    all_codes += [flow(code, place(), place()) for code in FLOWS]
    rng.shuffle(all_codes)
    im.add(*all_codes)


# A rich base: every section non-empty, every code but Apply and 14 to 16.
# Several seeds give several shapes.
def rich(rng):
    im = Image(options=rng.randrange(4), next=1)
    rich_state(im, rng)
    im.next += rng.randrange(3)
    rich_places(im, rng)
    rich_candidates(im, rng)
    im.lvalue = rng.randrange(len(im.places))
    im.own = rng.choice([None, 0, len(im.functions) - 1])
    return im


# The shortest accepted image: one identifier, one place, nothing else.
# It shows that no test leans on a section being there.
def least(rng):
    im = Image(options=rng.randrange(4), next=rng.choice([1, 300, 512]))
    im.place(im.ident(), rng.randrange(8))
    return im


# Case 1 of document 01: two identifiers, no functions.
# A base in between.
def case_one(rng):
    im = Image()
    im.plain(2)
    im.place(0), im.place(1)
    im.add(create(0, FROZEN, R_STATE), flow(ASSIGN, 0, 1))
    im.lvalue = 1
    return im


BASES = [("rich", rich), ("rich", rich), ("rich", rich), ("rich", rich), ("least", least),
         ("case 1", case_one)]

# ------------------------------------------------------------- ways to damage


# Word position of a field of a record.
# Sections stand one after the other from word 17.
def spot(im, section, index, field):
    records = im.records()
    before = sum(len(records[s]) * RECORD_WORDS[s] for s in range(section))
    return HEADER + before + index * RECORD_WORDS[section] + field


# Damage of one header word by a function of the old word and the image.
# All other words stay.
def head(word, change):
    def act(im, rng):
        words = im.words()
        words[word] = change(words[word], im) & NO
        return pack(words)
    return act


# Damage of one field of one record that fits `which`, picked by the seed.
# No such record: the damage does not apply to this base.
def field(section, index, change, which=lambda r, im: True):
    def act(im, rng):
        records = im.records()[section]
        fit = [i for i, r in enumerate(records) if which(r, im)]
        if not fit:
            return None
        i = rng.choice(fit)
        words = im.words()
        at = spot(im, section, i, index)
        words[at] = change(words[at], im) & NO
        return pack(words)
    return act


# Damage by editing the image before it is written, with right counts and offsets.
# `edit` returns False where it does not apply.
def edited(edit):
    def act(im, rng):
        if edit(im, rng) is False:
            return None
        return im.bytes()
    return act


# Damage of the written bytes.
# For lengths and for what is wrong between the sections.
def written(change):
    return lambda im, rng: change(im.bytes())


# Short names for a fixed new word.
# Most entries of the table only need that.
def to(new):
    return lambda old, im: new


# The old word plus something.
# For counts and offsets that are off by a little.
def plus(by):
    return lambda old, im: old + by


# ------------------------------------------------------- picks of records


# Records of candidates by code.
# Several codes may be named.
def code(*codes):
    return lambda r, im: r[0] in codes


# Not hoisted / hoisted with an access word that isn't zero.
# Only for the first must the access words be zero.
plain_id = lambda r, im: not r[0] & HOISTED
accessed = lambda r, im: r[0] & HOISTED and (r[2] or r[3])
# Functions by their two runs.
with_context = lambda r, im: r[2] > 0
no_context = lambda r, im: r[2] == 0
with_mutated = lambda r, im: r[4] > 0
no_mutated = lambda r, im: r[4] == 0
# CreateFunction with captures and without.
with_captures = lambda r, im: r[0] == CREATE_FUNCTION and r[7] > 0
no_captures = lambda r, im: r[0] == CREATE_FUNCTION and r[7] == 0

# Numbers just past the end of each list.
past_identifiers = lambda old, im: len(im.identifiers)
past_own = lambda old, im: OWN + len(im.identifiers)
past_places = lambda old, im: len(im.places)
past_functions = lambda old, im: len(im.functions)

# ------------------------------------------------------- edits of the image


# Makes the raw list of values or pairs editable as written records.
# Order and doubles cannot be made through the sorted tables.
def raw(im, section, change):
    records = [list(r) for r in im.records()[section]]
    if change(records, im) is False:
        return False
    whole = im.records()
    whole[section] = records
    im.records = lambda: whole


# An edit of one section's records as written.
# Counts and offsets follow, so nothing of class 2 arises.
def section(number, change):
    return edited(lambda im, rng: raw(im, number, change))


# Two neighbouring records change places.
# For the order of values and pairs.
def swap(records, im):
    if len(records) < 2:
        return False
    records[0], records[1] = records[1], records[0]


# The last record once more.
# Two entries of one key.
def double(records, im):
    if not records:
        return False
    records.append(list(records[-1]))


# The same value number twice, with another kind.
# The key is the number alone.
def double_other_kind(records, im):
    if not records:
        return False
    n, kind, reasons = records[-1]
    records.append([n, (kind + 1) % 6, reasons])


# Puts value 0 before the other values of an identifier that has some.
# Order stays ascending, so only the rule for 0 is broken.
def zero_beside(records, im):
    for i, (identifier, number) in enumerate(records):
        if number and (i == 0 or records[i - 1][0] != identifier):
            records.insert(i, [identifier, 0])
            return None
    return False


# Puts value 0 before the single value of an identifier.
# Two entries are already one too many.
def zero_beside_one(records, im):
    for i, (identifier, number) in enumerate(records):
        if number and sum(1 for r in records if r[0] == identifier) == 1:
            records.insert(i, [identifier, 0])
            return None
    return False


# Puts value 0 behind the other values of an identifier.
# Wrong order and not alone.
def zero_behind(records, im):
    if not records or not records[-1][1]:
        return False
    records.append([records[-1][0], 0])


# Moves the last identifier's pairs to the front.
# Identifiers descend, the values within one ascend.
def identifiers_descend(records, im):
    if len(records) < 2 or records[0][0] == records[-1][0]:
        return False
    records.insert(0, records.pop())


# Gives the highest fresh number of values or pairs the number `next`.
# Order is kept: fresh numbers stand below 512 + i; next must be a fresh number itself.
def number_next(at):
    def change(records, im):
        fresh = [r for r in records if 0 < r[at] < OWN]
        if not fresh or im.next >= OWN:
            return False
        last = max(fresh, key=lambda r: r[at])
        same = [r for r in records if at and r[0] == last[0]]
        if any(last[at] < r[at] < OWN for r in same):
            return False
        last[at] = im.next
    return change


# Removes the last identifier; something still names it.
# Only rich bases surely name it.
def drop_identifier(im, rng):
    if len(im.candidates) < 10:
        return False
    im.identifiers.pop()


# More records than a limit allows, with right counts and offsets.
# The added ones are valid by themselves.
def too_many(list_name, limit, make):
    def edit(im, rng):
        records = getattr(im, list_name)
        while len(records) <= limit:
            records.append(make(im))
    return edited(edit)


# A run whose count is one above its limit although the places suffice.
# So nothing but the limit is wrong.
def long_run(section_number, first_at, count_at, limit, which, known=False):
    def edit(im, rng):
        records = im.records()[section_number]
        fit = [r for r in records if which(r, im)]
        if not fit:
            return False
        r = fit[0]
        while len(im.places) < limit + 1:
            im.place(0)
        r[first_at], r[count_at] = 0, limit + 1
        if known:
            r[0] |= KNOWN
    return edited(edit)


# Adds Apply candidates with the given other words at an end of the list.
# Of an Apply no word but the code is tested.
def apply_at(where, rest):
    def edit(im, rng):
        if len(im.candidates) >= MAX_CANDIDATES:
            return False
        im.candidates.insert(0 if where == "front" else len(im.candidates), [APPLY] + rest)
    return edited(edit)


# Turns every candidate into an Apply, keeping its words.
# Their words are garbage for an Apply and are not looked at.
def all_apply(im, rng):
    if not im.candidates:
        return False
    for c in im.candidates:
        c[0] = APPLY


# 512 identifiers and values 1..1023, then one more value number.
# Next is 512, so every fresh number is below it.
def all_values(im, last):
    im.plain(511)
    im.next = 512
    values = [[n, n % 6, n & 0xFFF] for n in range(1, 1024)] + [[last, 0, 0]]
    whole = im.records()
    whole[VALUES] = values
    im.records = lambda: whole


# 512 identifiers and a single pair.
# The pair stands at the edge of its ranges.
def many_and_pair(im, identifier, value):
    im.plain(511)
    im.sets = {identifier: [value] if value else []}


# --------------------------------------------------- changes of written bytes


# Cuts to a number of bytes; where the image is shorter it does not apply.
# A cut at 68 or above is whole words, so class 1 passes.
def cut_to(size):
    return written(lambda data: data[:size] if len(data) > size else None)


# Drops words from the end.
# The last section then passes the end of the image.
def drop_words(count):
    def change(data):
        return data[:-4 * count] if len(data) - 4 * count >= MIN_BYTES else None
    return written(change)


# Shifts a section and all behind it by one word and moves the offsets along.
# A gap of one word stands before it, or it overlaps by one.
def gap(section_number, by):
    def act(im, rng):
        words = im.words()
        at = words[6 + 2 * section_number]
        if by < 0 and at >= len(words):
            return None
        body = words[:at] + [0] + words[at:] if by > 0 else words[:at - 1] + words[at:]
        if by < 0 and at == HEADER:
            return None
        for k in range(section_number, 6):
            body[6 + 2 * k] = words[6 + 2 * k] + by
        return pack(body)
    return act


# Writes two neighbouring sections in the other order, offsets telling the truth.
# They must follow in order.
def exchanged(first):
    def act(im, rng):
        words = im.words()
        a, b = words[6 + 2 * first], words[8 + 2 * first]
        end = b + words[7 + 2 * first] * RECORD_WORDS[first + 1]
        if a == b or b == end:
            return None
        out = words[:a] + words[b:end] + words[a:b] + words[end:]
        out[6 + 2 * first], out[8 + 2 * first] = a + end - b, a
        return pack(out)
    return act


# Exchanges two offsets and leaves the sections.
# Equal offsets (empty sections) would change nothing.
def offsets_exchanged(first):
    def act(im, rng):
        words = im.words()
        i, j = 6 + 2 * first, 8 + 2 * first
        if words[i] == words[j]:
            return None
        words[i], words[j] = words[j], words[i]
        return pack(words)
    return act


# Fills up with zeros to a size in bytes.
# Above 65,536 this is class 1, at it class 2.
def filled_to(size):
    return written(lambda data: data + b"\0" * (size - len(data)))


# A well-formed image of 65,540 bytes or more, made of places.
# Only the length is wrong.
def overlong(im, rng):
    while len(im.words()) % 5 != (MAX_BYTES // 4 + 1) % 5:
        im.ident()
    words = len(im.words())
    for _ in range((MAX_BYTES // 4 + 1 - words) // 5):
        im.place(0)


# ------------------------------------------------------------------ the table

GARBAGE = [NO] * 7

# Entries (name, refusal, damage). "paper" is document 01, "readings" the notes.
SINGLE = [
    # paper: "from 68 to 65,536 bytes and a multiple of 4 (else 1)"
    ("empty input", 1, written(lambda d: b"")),
    ("one byte", 1, cut_to(1)),
    ("four bytes", 1, cut_to(4)),
    ("64 bytes", 1, cut_to(64)),
    ("67 bytes", 1, cut_to(67)),
    ("69 bytes", 1, cut_to(69)),
    ("one byte short", 1, written(lambda d: d[:-1])),
    ("two bytes short", 1, written(lambda d: d[:-2])),
    ("three bytes short", 1, written(lambda d: d[:-3])),
    ("one byte long", 1, written(lambda d: d + b"\0")),
    ("two bytes long", 1, written(lambda d: d + b"\1\0")),
    ("three bytes long", 1, written(lambda d: d + b"\0\0\0")),
    # paper: "nothing after the last section (else 2)"; lengths are right here
    ("one word long", 2, written(lambda d: d + b"\0\0\0\0")),
    ("one word long, not zero", 2, written(lambda d: d + b"\1\0\0\0")),
    ("eight words long", 2, written(lambda d: d + b"\0" * 32)),
    # paper: "edition, count or offset is wrong": a section passes the end
    ("one word short", 2, drop_words(1)),
    ("five words short", 2, drop_words(5)),
    ("cut to the header", 2, cut_to(68)),
    ("cut to 72 bytes", 2, cut_to(72)),
    # paper: "edition 1", "edition ... is wrong"
    ("edition 0", 2, head(0, to(0))),
    ("edition 2", 2, head(0, to(2))),
    ("edition byte order", 2, head(0, to(0x01000000))),
    ("edition with a high bit", 2, head(0, to(0x80000001))),
    # paper: "count ... is wrong": a count that its neighbours' offsets belie
    ("identifiers count + 1", 2, head(5, plus(1))),
    ("identifiers count - 1", 2, head(5, plus(-1))),
    ("identifiers count FFFFFFFF", 2, head(5, to(NO))),
    ("values count + 1", 2, head(7, plus(1))),
    ("values count - 1", 2, head(7, plus(-1))),
    ("values count FFFFFFFF", 2, head(7, to(NO))),
    ("pairs count + 1", 2, head(9, plus(1))),
    ("pairs count - 1", 2, head(9, plus(-1))),
    ("pairs count FFFFFFFF", 2, head(9, to(NO))),
    ("places count + 1", 2, head(11, plus(1))),
    ("places count - 1", 2, head(11, plus(-1))),
    ("places count FFFFFFFF", 2, head(11, to(NO))),
    ("functions count + 1", 2, head(13, plus(1))),
    ("functions count - 1", 2, head(13, plus(-1))),
    ("functions count FFFFFFFF", 2, head(13, to(NO))),
    ("candidates count + 1", 2, head(15, plus(1))),
    ("candidates count - 1", 2, head(15, plus(-1))),
    ("candidates count FFFFFFFF", 2, head(15, to(NO))),
    # readings: "Multiply and add wide: count x size ... pass 32 bits"; the product wraps
    # to the old one (sizes 4, 2, 8), or to something small (sizes 3, 5)
    ("identifiers count wraps", 2, head(5, plus(0x40000000))),
    ("pairs count wraps", 2, head(9, plus(0x80000000))),
    ("candidates count wraps", 2, head(15, plus(0x20000000))),
    ("values count wraps to 1 word", 2, head(7, to(0xAAAAAAAB))),
    ("places count wraps to 1 word", 2, head(11, to(0xCCCCCCCD))),
    ("functions count wraps to 1 word", 2, head(13, to(0xCCCCCCCD))),
    # paper: "offset is wrong"; "which follow in order without gaps"
    ("identifiers offset + 1", 2, head(6, plus(1))),
    ("identifiers offset - 1", 2, head(6, plus(-1))),
    ("identifiers offset 0", 2, head(6, to(0))),
    ("values offset + 1", 2, head(8, plus(1))),
    ("values offset - 1", 2, head(8, plus(-1))),
    ("values offset FFFFFFFF", 2, head(8, to(NO))),
    ("pairs offset + 1", 2, head(10, plus(1))),
    ("pairs offset - 1", 2, head(10, plus(-1))),
    ("pairs offset 0", 2, head(10, to(0))),
    ("places offset + 1", 2, head(12, plus(1))),
    ("places offset - 1", 2, head(12, plus(-1))),
    ("places offset in bytes", 2, head(12, lambda old, im: old * 4)),
    ("functions offset + 1", 2, head(14, plus(1))),
    ("functions offset - 1", 2, head(14, plus(-1))),
    # readings: "an empty section still has its right offset"
    ("functions offset 0", 2, head(14, to(0))),
    ("candidates offset + 1", 2, head(16, plus(1))),
    ("candidates offset - 1", 2, head(16, plus(-1))),
    ("candidates offset 0", 2, head(16, to(0))),
    ("offsets of values and pairs exchanged", 2, offsets_exchanged(VALUES)),
    ("offsets of functions and candidates exchanged", 2, offsets_exchanged(FUNCTIONS)),
    # paper: "which follow in order without gaps"
    ("gap before identifiers", 2, gap(IDENTIFIERS, 1)),
    ("gap before values", 2, gap(VALUES, 1)),
    ("gap before places", 2, gap(PLACES, 1)),
    ("gap before candidates", 2, gap(CANDIDATES, 1)),
    ("values overlap identifiers", 2, gap(VALUES, -1)),
    ("candidates overlap functions", 2, gap(CANDIDATES, -1)),
    ("identifiers and values in the other order", 2, exchanged(IDENTIFIERS)),
    ("values and pairs in the other order", 2, exchanged(VALUES)),
    ("functions and candidates in the other order", 2, exchanged(FUNCTIONS)),
    # paper: "functions (64)", "candidates (64)", "a count is above its limit"
    ("65 functions", 2, too_many("functions", 64, lambda im: [0] * 5)),
    ("65 candidates", 2, too_many("candidates", 64, lambda im: one_place(RENDER, 0))),
    # readings: "The limits 16, 32 and 16 inside records are class 2"
    ("17 context places", 2, long_run(FUNCTIONS, 1, 2, 16, lambda r, im: True)),
    ("33 places mutated inside", 2, long_run(FUNCTIONS, 3, 4, 32, lambda r, im: True, True)),
    ("17 captures", 2, long_run(CANDIDATES, 6, 7, 16, code(CREATE_FUNCTION))),
    # class 2 before 3: the run passes the places as well
    ("context count 17", 2, field(FUNCTIONS, 2, to(17))),
    ("context count FFFFFFFF", 2, field(FUNCTIONS, 2, to(NO))),
    # readings: "more than 32 of them is still 2 first" (flag 1 may be missing)
    ("mutated count 33", 2, field(FUNCTIONS, 4, to(33))),
    ("mutated count 80000000", 2, field(FUNCTIONS, 4, to(0x80000000))),
    ("captures count 17", 2, field(CANDIDATES, 7, to(17), code(CREATE_FUNCTION))),
    ("captures count FFFFFFFF", 2, field(CANDIDATES, 7, to(NO), code(CREATE_FUNCTION))),

    # paper: options have bits 0 and 1; "a ... flag ... lies outside its range": 3
    ("options 4", 3, head(1, to(4))),
    ("options 7", 3, head(1, to(7))),
    ("options 80000000", 3, head(1, to(0x80000000))),
    # paper: "next number 1..512"; class 3 before the 4 of fresh numbers
    ("next 0", 3, head(2, to(0))),
    ("next 513", 3, head(2, to(513))),
    ("next FFFFFFFF", 3, head(2, to(NO))),
    # paper: "lvalue's place index"; "index ... outside its range"
    ("lvalue past the places", 3, head(3, past_places)),
    ("lvalue FFFFFFFF", 3, head(3, to(NO))),
    # paper: "own function + 1 or 0"
    ("own function past the functions", 3, head(4, lambda o, im: len(im.functions) + 1)),
    ("own function FFFFFFFF", 3, head(4, to(NO))),
    # paper: "flags (1 ref, 2 hoisted)"
    ("identifier flags 4", 3, field(IDENTIFIERS, 0, to(4))),
    ("identifier flags + 4", 3, field(IDENTIFIERS, 0, plus(4))),
    ("identifier flags FFFFFFFF", 3, field(IDENTIFIERS, 0, to(NO))),
    # paper: "name 1..512 or 0"
    ("name 513", 3, field(IDENTIFIERS, 1, to(513))),
    ("name FFFFFFFF", 3, field(IDENTIFIERS, 1, to(NO))),
    # readings: "A value number 0 in the values is 3" (order is kept at the front)
    ("value number 0", 3, field(VALUES, 0, to(0))),
    # paper: "Value numbers are 1..1023"
    ("value number 1024", 3, field(VALUES, 0, to(1024))),
    ("value number FFFFFFFF", 3, field(VALUES, 0, to(NO))),
    # paper: "here and in pairs 512 + i needs identifier i in the list, else 3"
    ("value number past own numbers", 3, field(VALUES, 0, past_own)),
    # paper: "Kinds 0..5"; "Reasons 0..11 ...; bit n is reason n"
    ("value kind 6", 3, field(VALUES, 1, to(6))),
    ("value kind FFFFFFFF", 3, field(VALUES, 1, to(NO))),
    ("value reasons bit 12", 3, field(VALUES, 2, to(0x1000))),
    ("value reasons bit 31", 3, field(VALUES, 2, lambda old, im: old | 0x80000000)),
    # paper: "pairs: identifier, value"; "Identifiers are 0..511", here those in the list
    ("pair identifier past the list", 3, field(PAIRS, 0, past_identifiers)),
    ("pair identifier FFFFFFFF", 3, field(PAIRS, 0, to(NO))),
    ("pair value 1024", 3, field(PAIRS, 1, to(1024))),
    ("pair value FFFFFFFF", 3, field(PAIRS, 1, to(NO))),
    ("pair value past own numbers", 3, field(PAIRS, 1, past_own)),
    # paper: places: "identifier, `Effect` in declared order from 0, reactive 0 or 1"
    ("place identifier past the list", 3, field(PLACES, 0, past_identifiers)),
    ("place identifier FFFFFFFF", 3, field(PLACES, 0, to(NO))),
    ("place Effect 8", 3, field(PLACES, 1, to(8))),
    ("place Effect FFFFFFFF", 3, field(PLACES, 1, to(NO))),
    ("place reactive 2", 3, field(PLACES, 2, to(2))),
    ("place reactive FFFFFFFF", 3, field(PLACES, 2, to(NO))),
    # the identifier that places, pairs and values name is gone: index outside its range
    ("last identifier removed", 3, edited(drop_identifier)),
    # paper: function "flags (1 effects known, 2 tracked side effect; 2, and any place
    # mutated inside, needs 1, else 3)"
    ("function flags 2", 3, field(FUNCTIONS, 0, to(2))),
    ("function flags 4", 3, field(FUNCTIONS, 0, to(4))),
    ("function flags 5", 3, field(FUNCTIONS, 0, to(5))),
    ("function flags FFFFFFFF", 3, field(FUNCTIONS, 0, to(NO))),
    ("mutated inside without known", 3, field(FUNCTIONS, 0, to(0), with_mutated)),
    # paper: "a run of places passes their end"; readings: "first + count pass 32 bits"
    ("context first past the places", 3, field(FUNCTIONS, 1, past_places, with_context)),
    ("context first FFFFFFFF", 3, field(FUNCTIONS, 1, to(NO), with_context)),
    ("context one past the end", 3,
     field(FUNCTIONS, 1, lambda o, im: len(im.places) - 1, lambda r, im: r[2] == 2)),
    ("context run wraps to 0", 3,
     field(FUNCTIONS, 1, lambda o, im: NO, lambda r, im: r[2] == 1)),
    ("context count 16 past the end", 3,
     field(FUNCTIONS, 2, to(16), lambda r, im: r[2] and r[1] + 16 > len(im.places))),
    ("mutated first past the places", 3, field(FUNCTIONS, 3, past_places, with_mutated)),
    ("mutated first FFFFFFFF", 3, field(FUNCTIONS, 3, to(NO), with_mutated)),
    ("mutated count 32 past the end", 3, field(FUNCTIONS, 4, to(32), with_mutated)),
    # paper: code "order of `AliasingEffect`, Freeze 0, ..., Render 17"; the other words
    # of an unknown code are not looked at, or would be of class 4
    ("code 18", 3, field(CANDIDATES, 0, to(18))),
    ("code 19", 3, field(CANDIDATES, 0, to(19))),
    ("code FFFFFFFF", 3, field(CANDIDATES, 0, to(NO))),
    ("code 10C", 3, field(CANDIDATES, 0, to(0x10C))),
    # readings: "Codes 14, 15, 16 in an image are always 3"
    ("code 14", 3, field(CANDIDATES, 0, to(14))),
    ("code 15", 3, field(CANDIDATES, 0, to(15))),
    ("code 16", 3, field(CANDIDATES, 0, to(16))),
    ("code 16 for a Render", 3, field(CANDIDATES, 0, to(16), code(RENDER))),
    ("code 14 for CreateFunction", 3, field(CANDIDATES, 0, to(14), code(CREATE_FUNCTION))),
    # place indices of each code (readings: which words are used)
    ("Freeze place past", 3, field(CANDIDATES, 1, past_places, code(FREEZE))),
    ("Mutate place past", 3, field(CANDIDATES, 1, past_places, code(MUTATE))),
    ("one-place code, place past", 3, field(CANDIDATES, 1, past_places, code(*ONE_PLACE))),
    ("one-place code, place FFFFFFFF", 3, field(CANDIDATES, 1, to(NO), code(*ONE_PLACE))),
    ("flow source past", 3, field(CANDIDATES, 1, past_places, code(*FLOWS))),
    ("flow source FFFFFFFF", 3, field(CANDIDATES, 1, to(NO), code(*FLOWS))),
    ("flow destination past", 3, field(CANDIDATES, 2, past_places, code(*FLOWS))),
    ("flow destination FFFFFFFF", 3, field(CANDIDATES, 2, to(NO), code(*FLOWS))),
    ("Create destination past", 3, field(CANDIDATES, 2, past_places, code(CREATE))),
    ("CreateFunction destination past", 3,
     field(CANDIDATES, 2, past_places, code(CREATE_FUNCTION))),
    # kinds, reasons and mutation reasons of candidates; paper: "A mutation reason is 0 for
    # none, else 1 + its place in `MutationReason`", which has one member
    ("Freeze reason 12", 3, field(CANDIDATES, 4, to(12), code(FREEZE))),
    ("Freeze reason FFFFFFFF", 3, field(CANDIDATES, 4, to(NO), code(FREEZE))),
    ("mutation reason 2", 3, field(CANDIDATES, 3, to(2), code(MUTATE))),
    ("mutation reason FFFFFFFF", 3, field(CANDIDATES, 3, to(NO), code(MUTATE))),
    ("Create kind 6", 3, field(CANDIDATES, 3, to(6), code(CREATE))),
    ("Create kind FFFFFFFF", 3, field(CANDIDATES, 3, to(NO), code(CREATE))),
    ("Create reason 12", 3, field(CANDIDATES, 4, to(12), code(CREATE))),
    # readings: "A candidate's function is a plain index"
    ("CreateFunction function past", 3, field(CANDIDATES, 5, past_functions, code(CREATE_FUNCTION))),
    ("CreateFunction function FFFFFFFF", 3, field(CANDIDATES, 5, to(NO), code(CREATE_FUNCTION))),
    ("captures first past the places", 3, field(CANDIDATES, 6, past_places, with_captures)),
    ("captures first FFFFFFFF", 3, field(CANDIDATES, 6, to(NO), with_captures)),
    ("captures count 16 past the end", 3,
     field(CANDIDATES, 7, to(16), lambda r, im: r[0] == 13 and r[6] + 16 > len(im.places))),

    # paper: "access start, end (both words zero if not hoisted)"; "an unused word not zero"
    ("access start of a plain identifier", 4, field(IDENTIFIERS, 2, to(1), plain_id)),
    ("access end of a plain identifier", 4, field(IDENTIFIERS, 3, to(1), plain_id)),
    ("access start FFFFFFFF of a plain one", 4, field(IDENTIFIERS, 2, to(NO), plain_id)),
    ("access end 80000000 of a plain one", 4, field(IDENTIFIERS, 3, to(0x80000000), plain_id)),
    ("hoisted flag cleared", 4, field(IDENTIFIERS, 0, lambda o, im: o & REF, accessed)),
    # paper: "values: number, kind, reasons, ascending"; "two entries of one key, wrong order"
    ("values swapped", 4, section(VALUES, swap)),
    ("value doubled", 4, section(VALUES, double)),
    ("value number twice, other kind", 4, section(VALUES, double_other_kind)),
    ("pairs swapped", 4, section(PAIRS, swap)),
    ("pair doubled", 4, section(PAIRS, double)),
    ("pair identifiers descend", 4, section(PAIRS, identifiers_descend)),
    # paper: "value 0, the only one of its identifier (else 4)"
    ("value 0 before others", 4, section(PAIRS, zero_beside)),
    ("value 0 before one other", 4, section(PAIRS, zero_beside_one)),
    ("value 0 behind others", 4, section(PAIRS, zero_behind)),
    # paper: "a fresh number not below next": 4
    ("fresh value number at next", 4, section(VALUES, number_next(0))),
    ("fresh pair value at next", 4, section(PAIRS, number_next(1))),
    ("next 1 although fresh numbers are used", 4,
     lambda im, rng: head(2, to(1))(im, rng) if 1 in im.values else None),
    ("next at the highest fresh number", 4,
     lambda im, rng: head(2, lambda o, i: max(n for n in i.values if n < OWN))(im, rng)
     if 1 in im.values else None),
    # readings: "The first of an empty run: not zero is 4; no range test"
    ("context first of an empty run", 4, field(FUNCTIONS, 1, to(1), no_context)),
    ("context first of an empty run, past", 4, field(FUNCTIONS, 1, to(NO), no_context)),
    ("mutated first of an empty run", 4, field(FUNCTIONS, 3, to(1), no_mutated)),
    ("mutated first of an empty run, past", 4, field(FUNCTIONS, 3, past_places, no_mutated)),
    ("captures first of an empty run", 4, field(CANDIDATES, 6, to(1), no_captures)),
    ("captures first of an empty run, past", 4, field(CANDIDATES, 6, to(NO), no_captures)),
    # a count that becomes 0 leaves its first unused; rich bases have firsts above 0
    ("captures count 0, first stays", 4, field(CANDIDATES, 7, to(0), with_captures)),
    ("mutated count 0, first stays", 4,
     field(FUNCTIONS, 4, to(0), lambda r, im: r[4] and r[3])),
    # readings: words used per code; "Every other word must be zero (4), and is never
    # tested for range: a captures count of 17 in a code other than 13 is 4, not 2"
    ("Freeze second place", 4, field(CANDIDATES, 2, to(1), code(FREEZE))),
    ("Freeze kind", 4, field(CANDIDATES, 3, to(1), code(FREEZE))),
    ("Freeze function", 4, field(CANDIDATES, 5, to(NO), code(FREEZE))),
    ("Mutate second place", 4, field(CANDIDATES, 2, to(NO), code(MUTATE))),
    ("Mutate reason", 4, field(CANDIDATES, 4, to(1), code(MUTATE))),
    ("Mutate function", 4, field(CANDIDATES, 5, to(1), code(MUTATE))),
    ("one-place code, second place", 4, field(CANDIDATES, 2, to(1), code(*ONE_PLACE))),
    ("one-place code, kind", 4, field(CANDIDATES, 3, to(1), code(*ONE_PLACE))),
    ("one-place code, reason", 4, field(CANDIDATES, 4, to(12), code(*ONE_PLACE))),
    ("one-place code, function", 4, field(CANDIDATES, 5, to(1), code(*ONE_PLACE))),
    ("one-place code, captures first", 4, field(CANDIDATES, 6, to(1), code(*ONE_PLACE))),
    ("one-place code, captures count 17", 4, field(CANDIDATES, 7, to(17), code(*ONE_PLACE))),
    ("flow kind", 4, field(CANDIDATES, 3, to(6), code(*FLOWS))),
    ("flow reason", 4, field(CANDIDATES, 4, to(1), code(*FLOWS))),
    ("flow function", 4, field(CANDIDATES, 5, to(NO), code(*FLOWS))),
    ("flow captures first", 4, field(CANDIDATES, 6, to(NO), code(*FLOWS))),
    ("flow captures count 1", 4, field(CANDIDATES, 7, to(1), code(*FLOWS))),
    ("flow captures count FFFFFFFF", 4, field(CANDIDATES, 7, to(NO), code(*FLOWS))),
    ("Create first place", 4, field(CANDIDATES, 1, to(1), code(CREATE))),
    ("Create function", 4, field(CANDIDATES, 5, to(1), code(CREATE))),
    ("Create captures count 17", 4, field(CANDIDATES, 7, to(17), code(CREATE))),
    ("CreateFunction first place", 4, field(CANDIDATES, 1, to(NO), code(CREATE_FUNCTION))),
    ("CreateFunction kind", 4, field(CANDIDATES, 3, to(1), code(CREATE_FUNCTION))),
    ("CreateFunction reason", 4, field(CANDIDATES, 4, to(12), code(CREATE_FUNCTION))),
    ("Freeze captures first", 4, field(CANDIDATES, 6, to(1), code(FREEZE))),
    ("Freeze captures count", 4, field(CANDIDATES, 7, to(17), code(FREEZE))),
    ("Mutate captures first", 4, field(CANDIDATES, 6, to(1), code(MUTATE))),
    ("Mutate captures count", 4, field(CANDIDATES, 7, to(1), code(MUTATE))),
    ("Create captures first", 4, field(CANDIDATES, 6, to(1), code(CREATE))),
    # another code under which a used word is unused; rich bases use no zero there
    ("Freeze made Render", 4, field(CANDIDATES, 0, to(RENDER), code(FREEZE))),
    ("flow made Render", 4, field(CANDIDATES, 0, to(RENDER), lambda r, im: r[0] in FLOWS and r[2])),
    ("Create made Assign", 4, field(CANDIDATES, 0, to(ASSIGN), lambda r, im: r[0] == CREATE and r[4])),
    ("Mutate made MutateTransitive", 4,
     field(CANDIDATES, 0, to(MUTATE_TRANS), lambda r, im: r[0] == MUTATE and r[3])),

    # paper: "a candidate is Apply": 5; "Of an Apply no word but the code is tested"
    ("a candidate made Apply", 5, field(CANDIDATES, 0, to(APPLY))),
    ("CreateFunction made Apply", 5, field(CANDIDATES, 0, to(APPLY), code(CREATE_FUNCTION))),
    ("Apply of zeros behind", 5, apply_at("end", [0] * 7)),
    ("Apply of zeros in front", 5, apply_at("front", [0] * 7)),
    ("Apply of garbage behind", 5, apply_at("end", GARBAGE)),
    ("Apply of garbage in front", 5, apply_at("front", GARBAGE)),
    ("Apply with 17 captures", 5, apply_at("end", [0, 0, 0, 0, 0, 0, 17])),
    ("Apply with places past the end", 5, apply_at("front", [9999, 9999, 6, 12, 77, 9999, 1])),
    ("every candidate an Apply", 5, edited(all_apply)),
]

# Two things wrong: (first name, second name, refusal). Paper: "Order 1 to 5 over the
# whole input", so the lower class of the two is stated. The first is done on the image's
# words, the second on the words that the first left, both at places that do not meet.
DOUBLE = [
    # 1 with each other class
    ("edition 2", "one byte long", 1), ("options 4", "three bytes short", 1),
    ("access start of a plain identifier", "two bytes long", 1),
    ("a candidate made Apply", "one byte short", 1),
    # 2 with 3
    ("options 4", "one word long", 2), ("next 513", "edition 0", 2),
    ("lvalue FFFFFFFF", "candidates count + 1", 2), ("code 18", "identifiers offset + 1", 2),
    ("value kind 6", "places count - 1", 2), ("options 7", "captures count 17", 2),
    ("next 0", "context count 17", 2), ("lvalue past the places", "mutated count 33", 2),
    ("name 513", "captures count FFFFFFFF", 2), ("place Effect 8", "identifiers count wraps", 2),
    ("own function FFFFFFFF", "pairs count wraps", 2), ("place reactive 2", "candidates count wraps", 2),
    # 2 with 4
    ("access end of a plain identifier", "one word short", 2),
    ("flow reason", "edition 2", 2), ("one-place code, kind", "context count FFFFFFFF", 2),
    ("Create first place", "mutated count 80000000", 2), ("Freeze second place", "values offset + 1", 2),
    ("hoisted flag cleared", "functions count FFFFFFFF", 2),
    # 2 with 5
    ("a candidate made Apply", "edition 0", 2), ("a candidate made Apply", "one word long", 2),
    ("a candidate made Apply", "context count 17", 2), ("a candidate made Apply", "pairs offset - 1", 2),
    # 3 with 4
    ("access start of a plain identifier", "options 4", 3), ("flow kind", "next 0", 3),
    ("Freeze kind", "value kind 6", 3), ("one-place code, function", "name 513", 3),
    ("Create function", "place Effect 8", 3), ("Mutate reason", "function flags 4", 3),
    ("context first of an empty run", "lvalue past the places", 3),
    ("CreateFunction kind", "pair value 1024", 3), ("flow captures first", "Create reason 12", 3),
    ("captures first of an empty run", "value reasons bit 12", 3),
    ("hoisted flag cleared", "place reactive 2", 3), ("flow function", "Freeze reason 12", 3),
    ("Mutate captures count", "own function past the functions", 3),
    # 3 with 4, the 4 standing before the 3 in the image and behind it
    ("values swapped", "place identifier past the list", 3), ("pairs swapped", "code 18", 3),
    ("pair doubled", "Freeze reason 12", 3), ("value doubled", "function flags 2", 3),
    ("value 0 before others", "lvalue past the places", 3),
    ("fresh value number at next", "value kind 6", 3), ("fresh pair value at next", "options 4", 3),
    ("access start of a plain identifier", "code 18", 3),
    ("hoisted flag cleared", "captures first FFFFFFFF", 3),
    ("last identifier removed", "captures first of an empty run", 3),
    ("flow captures count FFFFFFFF", "next FFFFFFFF", 3), ("Create captures first", "name FFFFFFFF", 3),
    # 2 inside a record, with 3 or 4 standing before it
    ("name 513", "context count 17", 2), ("identifier flags 4", "captures count 17", 2),
    ("pair value 1024", "mutated count 33", 2), ("code FFFFFFFF", "context count FFFFFFFF", 2),
    ("value doubled", "context count 17", 2), ("pairs swapped", "captures count 17", 2),
    ("fresh pair value at next", "edition 2", 2), ("value number 0", "one word short", 2),
    # 3 with 5
    ("Apply of garbage in front", "name 513", 3), ("every candidate an Apply", "place Effect 8", 3),
    ("Apply with places past the end", "value reasons bit 12", 3),
    ("a candidate made Apply", "options 7", 3), ("a candidate made Apply", "next 513", 3),
    ("a candidate made Apply", "lvalue FFFFFFFF", 3), ("a candidate made Apply", "place Effect 8", 3),
    ("a candidate made Apply", "value number 0", 3), ("a candidate made Apply", "function flags 2", 3),
    ("Freeze made Apply", "Create kind 6", 3), ("Freeze made Apply", "flow source past", 3),
    ("Freeze made Apply", "mutation reason 2", 3), ("Freeze made Apply", "code 18 for Create", 3),
    # 5 with 1 and 2
    ("every candidate an Apply", "one byte long", 1), ("Apply with 17 captures", "one word long", 2),
    ("Apply of garbage behind", "mutated count 33", 2),
    # 4 with 5
    ("values swapped", "a candidate made Apply", 4), ("pair doubled", "CreateFunction made Apply", 4),
    ("value 0 behind others", "Freeze made Apply", 4),
    ("fresh value number at next", "a candidate made Apply", 4),
    ("Apply of garbage behind", "access end of a plain identifier", 4),
    ("Apply with 17 captures", "context first of an empty run", 4),
    ("a candidate made Apply", "access end of a plain identifier", 4),
    ("a candidate made Apply", "context first of an empty run", 4),
    ("a candidate made Apply", "mutated first of an empty run", 4),
    ("Freeze made Apply", "flow reason", 4), ("Freeze made Apply", "Mutate captures first", 4),
    ("Freeze made Apply", "Create captures count 17", 4),
    ("Freeze made Apply", "captures first of an empty run", 4),
    ("Freeze made Apply", "one-place code, captures count 17", 4),
]

# Parts of DOUBLE only: alone they are in SINGLE under a wider pick.
# The pick is narrow so that the two damages cannot meet in one record.
PARTS = {
    "Freeze made Apply": (5, field(CANDIDATES, 0, to(APPLY), code(FREEZE))),
    "code 18 for Create": (3, field(CANDIDATES, 0, to(18), code(CREATE))),
}

# Large or odd ones, once each and not on every base: (name, refusal, base, damage).
ODD = [
    # readings: "The lvalue needs a place": a header with six empty sections has none
    ("header alone, well formed", 3, least, edited(
        lambda im, rng: im.identifiers.clear() or im.places.clear())),
    # a place needs its identifier: index outside its range
    ("a place and no identifier", 3, least, edited(lambda im, rng: im.identifiers.clear())),
    # an identifier and no place: the lvalue's index is outside its range
    ("an identifier and no place", 3, least, edited(lambda im, rng: im.places.clear())),
    # paper: "from 68 to 65,536 bytes ... (else 1)"
    ("65,540 bytes, well formed", 1, least, edited(overlong)),
    # paper: "nothing after the last section (else 2)": 65,536 bytes is no length error
    ("65,536 bytes of which the end is zeros", 2, least, filled_to(65536)),
    # paper: "identifiers (at most 512)"
    ("513 identifiers", 2, least, too_many("identifiers", 512, lambda im: [0] * 4)),
    ("513 identifiers, Apply too", 2, case_one, edited(
        lambda im, rng: [im.ident() for _ in range(511)] and im.add([APPLY] + GARBAGE))),
    # readings: "a 1,024th value is caught by order or range": 512 identifiers, values
    # 1..1023 and then 1024 (range, 3) or 1023 once more (order, 4)
    ("1,024 values, the last out of range", 3, least, edited(
        lambda im, rng: all_values(im, 1024))),
    ("1,024 values, the last doubled", 4, least, edited(
        lambda im, rng: all_values(im, 1023))),
    # paper: "512 + i needs identifier i in the list": with 512 identifiers 1,024 is past
    ("512 identifiers, pair value 1024", 3, least, edited(
        lambda im, rng: many_and_pair(im, 0, 1024))),
    # paper: "Identifiers are 0..511"
    ("512 identifiers, pair identifier 512", 3, least, edited(
        lambda im, rng: many_and_pair(im, 512, 0))),
    # paper: 64 candidates pass; the 64th is an Apply
    ("64 candidates, the last an Apply", 5, case_one, edited(
        lambda im, rng: im.add(*[one_place(RENDER, 0)] * 61, [APPLY] + GARBAGE))),
    # 64 candidates are no error, so the unused word of the last counts
    ("64 candidates, an unused word in the last", 4, case_one, edited(
        lambda im, rng: im.add(*[one_place(RENDER, 0)] * 61, record(RENDER, 0, 1)))),
]


# ------------------------------------------------------------ making the list


# A copy of the image whose words are those of a first damage.
# The second damage then works on words at the old positions.
class Damaged:
    # Takes the undamaged image for positions and the damaged words.
    # Only damages of words, header or bytes can come second.
    def __init__(self, im, words):
        self.__dict__.update(im.__dict__)
        self._records, self._words = im.records(), words

    # Records of the undamaged image, for picks and positions.
    # A pick must not see the first damage.
    def records(self):
        return self._records

    # The damaged words.
    # The second damage changes a copy.
    def words(self):
        return list(self._words)

    # The damaged bytes.
    # For damages of the length.
    def bytes(self):
        return pack(self._words)


# Runs one damage on a fresh base.
# The base depends on the seed alone.
def single(act, base, seed):
    rng = random.Random(seed)
    return act(base(rng), rng)


# Runs two damages on a fresh base, the second on the words of the first.
# None if one of them does not apply.
def double_damage(first, second, base, seed):
    rng = random.Random(seed)
    im = base(rng)
    data = first(im, rng)
    if data is None or len(data) % 4:
        return None
    return second(Damaged(im, unpack(data)), rng)


# All damages on one base as (tag, refusal, bytes); seed and number decide its shape.
# Those that do not apply to the base are left out.
def on_base(seed, number):
    label, base = BASES[number]
    actions = {name: act for name, _, act in SINGLE}
    actions.update({name: act for name, (_, act) in PARTS.items()})
    at = seed * 100 + number
    for name, expected, act in SINGLE:
        data = single(act, base, at)
        if data is not None:
            yield "%s / %s" % (name, label), expected, data
    for a, b, expected in DOUBLE:
        data = double_damage(actions[a], actions[b], base, at)
        if data is not None:
            yield "%s + %s / %s" % (a, b, label), expected, data


# All damages of one round: every base once.
# Rounds with other seeds give other shapes.
def one_round(seed):
    for number in range(len(BASES)):
        yield from on_base(seed, number)


# The large and odd ones, each once.
# They stay out of the rounds, for size.
def odd():
    for name, expected, base, act in ODD:
        yield name, expected, single(act, base, 1)


# The stated refusals of the two parts of a double, for the check below.
# The stated refusal of the double must be the lower one.
def double_table_slips():
    stated = {name: n for name, n, _ in SINGLE}
    stated.update({name: n for name, (n, _) in PARTS.items()})
    return [d for d in DOUBLE if d[2] != min(stated[d[0]], stated[d[1]])]


# Compares table and model over some rounds; prints every difference.
# Each difference has to be settled from the paper, not from the program.
def main():
    wrong = list(double_table_slips())
    for number, (label, base) in enumerate(BASES):
        for seed in range(200):
            got = refusal(base(random.Random(seed * 100 + number)).bytes())
            if got:
                wrong.append(("base", label, seed, got))
    total = 0
    for seed in range(40):
        for tag, expected, data in list(one_round(seed)) + (list(odd()) if seed == 0 else []):
            total += 1
            if refusal(data) != expected:
                wrong.append((tag, "stated", expected, "model", refusal(data), "seed", seed))
    for line in wrong:
        print(line)
    print("%d damaged images compared, %d differences" % (total, len(wrong)))


if __name__ == "__main__":
    main()
