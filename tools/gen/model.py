"""A plain model of refusals 1 to 5 of a job image, from document 01 and the readings.

It is no part of how expectations are made: the table of damage.py is written by
hand. The model only checks that table, and the valid images, for slips.
"""

from names import *
from words import unpack

SIZES = [4, 3, 2, 5, 5, 8]
COUNT_LIMITS = [512, None, None, None, 64, 64]

# Words of a candidate that its code uses, w1 to w7 (w6 only if w7 is not 0).
USED = {
    0: {1, 4}, 1: {1, 3}, 2: {1}, 3: {1}, 4: {1}, 17: {1},
    5: {1, 2}, 6: {1, 2}, 7: {1, 2}, 8: {1, 2}, 10: {1, 2}, 11: {1, 2},
    9: {2, 3, 4}, 13: {2, 5, 6, 7}, 14: {1, 3}, 15: {1, 3}, 16: {1, 3},
}


# Cuts the body into records, or None if a count or offset is wrong.
# Python's integers are wide, so nothing wraps.
def split(words):
    sections, at = [], HEADER
    for k in range(6):
        count, offset = words[5 + 2 * k], words[6 + 2 * k]
        limit = COUNT_LIMITS[k]
        if offset != at or (limit is not None and count > limit):
            return None
        end = at + count * SIZES[k]
        if end > len(words):
            return None
        sections.append([words[i:i + SIZES[k]] for i in range(at, end, SIZES[k])])
        at = end
    return sections if at == len(words) else None


# Adds class 2 if a count inside a record passes its limit.
# Of an Apply, and of codes that hold no captures, no count is looked at.
def inner_limits(sections, found):
    for _, _, context, _, mutated in sections[4]:
        if context > MAX_CONTEXT or mutated > MAX_MUTATED:
            found.add(2)
    for c in sections[5]:
        if c[0] == CREATE_FUNCTION and c[7] > MAX_CAPTURES:
            found.add(2)


# Whether a value number may stand in values or pairs (0 is judged by the caller).
# 512 + i needs identifier i in the list.
def value_in_range(number, identifiers):
    return number < OWN or number - OWN < identifiers


# Classes 3 and 4 of a run of places.
# The first of an empty run is unused and has no range.
def run(first, count, places, found):
    if count == 0 and first != 0:
        found.add(4)
    if count != 0 and first + count > places:
        found.add(3)


# Classes 3 and 4 of the header words that are neither count nor offset.
# The own function is an index + 1, the lvalue a plain index.
def header(words, sections, found):
    if words[1] > 3 or not 1 <= words[2] <= MAX_NEXT:
        found.add(3)
    if words[3] >= len(sections[3]) or words[4] > len(sections[4]):
        found.add(3)


# Classes 3 and 4 of identifiers and places.
# Access words are used only where the identifier is hoisted.
def identifiers_and_places(sections, found):
    for flags, name, start, end in sections[0]:
        if flags > 3 or name > 512:
            found.add(3)
        if not flags & HOISTED and (start or end):
            found.add(4)
    for identifier, effect, reactive, _, _ in sections[3]:
        if identifier >= len(sections[0]) or effect > 7 or reactive > 1:
            found.add(3)


# Classes 3 and 4 of values and pairs.
# Ascending order also forbids two entries of one key.
def state(words, sections, found):
    identifiers, next_number = len(sections[0]), words[2]
    numbers = [v[0] for v in sections[1]]
    for number, kind, reasons in sections[1]:
        if number == 0 or not value_in_range(number, identifiers) or kind > 5 or reasons > 0xFFF:
            found.add(3)
    for identifier, number in sections[2]:
        if identifier >= identifiers or not value_in_range(number, identifiers):
            found.add(3)
        if number == 0 and sum(1 for p in sections[2] if p[0] == identifier) > 1:
            found.add(4)
    for keys in (numbers, [tuple(p) for p in sections[2]]):
        if any(a >= b for a, b in zip(keys, keys[1:])):
            found.add(4)
    for number in numbers + [p[1] for p in sections[2]]:
        if next_number <= number < OWN:
            found.add(4)


# Classes 3 and 4 of functions.
# A tracked side effect, and any place mutated inside, needs known effects.
def functions(sections, found):
    for flags, cfirst, ccount, mfirst, mcount in sections[4]:
        if flags > 3 or (not flags & KNOWN and (flags & TRACKED or mcount)):
            found.add(3)
        run(cfirst, ccount, len(sections[3]), found)
        run(mfirst, mcount, len(sections[3]), found)


# Classes 3, 4 and 5 of one candidate.
# An unused word is only tested for zero, a used one only for its range.
def candidate(c, sections, found):
    code, places = c[0], len(sections[3])
    if code == APPLY:
        found.add(5)
        return
    if code > 17:
        found.add(3)
        return
    used = USED[code]
    for w in range(1, 8):
        if w not in used and c[w] != 0:
            found.add(4)
    if (1 in used and c[1] >= places) or (2 in used and c[2] >= places):
        found.add(3)
    if code in DIAGNOSED or (code == MUTATE and c[3] > 1) or (code == CREATE and c[3] > 5):
        found.add(3)
    if 4 in used and c[4] > 11:
        found.add(3)
    if code == CREATE_FUNCTION:
        if c[5] >= len(sections[4]):
            found.add(3)
        run(c[6], c[7], places, found)


# The refusal of an image, 0 if none of 1 to 5.
# Classes go in order over the whole input, whatever the place.
def refusal(data):
    if len(data) % 4 or not MIN_BYTES <= len(data) <= MAX_BYTES:
        return 1
    words = unpack(data)
    sections = split(words)
    if words[0] != 1 or sections is None:
        return 2
    found = set()
    inner_limits(sections, found)
    header(words, sections, found)
    identifiers_and_places(sections, found)
    state(words, sections, found)
    functions(sections, found)
    for c in sections[5]:
        candidate(c, sections, found)
    return min(found) if found else 0
