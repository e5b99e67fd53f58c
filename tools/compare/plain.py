"""A plain model of the refusals 1 to 5 of a job image, written from document 01 alone.

Each test stands below the sentence of document 01 that asks for it, in quotes. Where a comment says
`Reading:` the sentence is silent or can be read in two ways, and the readings of document 01, section `The
image`, settle it. Nothing here was taken from the program, its definition, or the model of tools/gen.

    refusal(data)     0, or the number from 1 to 5 that the bytes of an image earn
"""

import struct

# "Header of 17: edition 1; options (...); next number 1..512; lvalue's place index; own function + 1 or 0;
# then count and word offset of six sections, which follow in order without gaps".
HEADER = 17

# The six sections in their order, with the words of one record, counted from the lists of their parts:
# "flags, name, access start, end"; "number, kind, reasons"; "identifier, value"; "identifier, `Effect`,
# reactive, start, end"; "flags, first and count of context places, first and count of places mutated inside";
# "code, first place, second place, kind or mutation reason or diagnostic, reason, function, first and count
# of captures".
SIZES = (4, 3, 2, 5, 5, 8)

# "identifiers (at most 512)", "functions (64)", "candidates (64)"; values, pairs and places state no limit.
LIMITS = (512, None, None, None, 64, 64)

# "context places (16)", "places mutated inside (32)", "captures (16)".
CONTEXT_LIMIT = 16
INSIDE_LIMIT = 32
CAPTURE_LIMIT = 16

# "code (order of `AliasingEffect`, Freeze 0, Apply 12, Render 17)".
MUTATE, CREATE, APPLY, CREATE_FUNCTION, RENDER = 1, 9, 12, 13, 17
# MutateFrozen, MutateGlobal and Impure, which stand between CreateFunction and Render.
DIAGNOSED = (14, 15, 16)

# What each code has among its words 1 to 7, by the parts of its `AliasingEffect`: "first place, second place
# (a destination is the second, any other the first), kind or mutation reason or diagnostic, reason, function,
# first and count of captures". So Mutate is 1 and 3 (value, mutation reason), Create 2, 3 and 4 (into, kind,
# reason), CreateFunction 2, 5, 6 and 7, an `into` with a `from` 1 and 2, MutateFrozen 1 and 3 (diagnostic).
PARTS = {
    0: (1, 4), 1: (1, 3), 2: (1,), 3: (1,), 4: (1,), 5: (1, 2), 6: (1, 2), 7: (1, 2), 8: (1, 2),
    9: (2, 3, 4), 10: (1, 2), 11: (1, 2), 13: (2, 5, 6, 7), 14: (1, 3), 15: (1, 3), 16: (1, 3), 17: (1,),
}


# Refusal 1, of the bytes as they came.
# It comes first, since all else reads words.
def wrong_length(data):
    # "Little-endian u32 words, from 68 to 65,536 bytes and a multiple of 4 (else 1)".
    return not 68 <= len(data) <= 65536 or len(data) % 4 != 0


# The records of the six sections as lists of tuples, or None where the header earns 2.
# Everything after the layout may then trust the records to be there.
def split(words):
    # "edition 1"; table: 2, "edition, count or offset is wrong".
    if words[0] != 1:
        return None
    sections, at = [], HEADER
    for which in range(6):
        count, offset = words[5 + 2 * which], words[6 + 2 * which]
        # "or a count is above its limit".
        if LIMITS[which] is not None and count > LIMITS[which]:
            return None
        # "count and word offset of six sections, which follow in order without gaps".
        # Reading: the first offset is 17, and an empty section has its right offset too.
        if offset != at:
            return None
        end = at + count * SIZES[which]
        if end > len(words):
            return None
        size = SIZES[which]
        sections.append([words[start:start + size] for start in range(at, end, size)])
        at = end
    # "nothing after the last section (else 2)".
    if at != len(words):
        return None
    return sections


# Refusal 2 inside the records: a count there above its limit.
# Reading: the limits 16, 32 and 16 are of class 2 like those of the header.
def count_above(sections):
    for _, _, context, _, inside in sections[4]:
        # "first and count of context places (16), first and count of places mutated inside (32)".
        if context > CONTEXT_LIMIT or inside > INSIDE_LIMIT:
            return True
    for candidate in sections[5]:
        # "first and count of captures (16)".
        # Reading: only where the count is used; elsewhere it is an unused word, and 4.
        if candidate[0] == CREATE_FUNCTION and candidate[7] > CAPTURE_LIMIT:
            return True
    return False


# Whether a value number is out of range in a list with so many identifiers; 0 is for the caller to judge.
# Values and pairs share this rule.
def bad_number(number, identifiers):
    # "Value numbers are 1..1023: 1..511 are fresh, 512 + i stands for the Rust's 0x80000000 | i";
    # "here and in pairs 512 + i needs identifier i in the list, else 3".
    return number >= 512 and (number > 1023 or number - 512 >= identifiers)


# Whether a run of places passes their end.
# Reading: the first of an empty run isn't tested for range; not zero it is 4.
def bad_run(first, count, places):
    # Table: 3, "or a run of places passes their end".
    return count > 0 and first + count > places


# Whether a used word of one candidate lies outside its range.
# An Apply has none: "Of an Apply no word but the code is tested".
def bad_candidate(candidate, places, functions):
    code, first, second, third, reason, function, start, count = candidate
    # "code (order of `AliasingEffect`, Freeze 0, Apply 12, Render 17)".
    if code > RENDER:
        return True
    if code == APPLY:
        return False
    parts = PARTS[code]
    # "first place, second place": each is an index into the places.
    if 1 in parts and first >= places:
        return True
    if 2 in parts and second >= places:
        return True
    # "Kinds 0..5".
    if code == CREATE and third > 5:
        return True
    # "A mutation reason is 0 for none, else 1 + its place in `MutationReason`", which has one case.
    if code == MUTATE and third > 1:
        return True
    # "A diagnostic must already stand in the table, else 3"; "diagnostics start empty".
    if code in DIAGNOSED:
        return True
    # "Reasons 0..11".
    if 4 in parts and reason > 11:
        return True
    # "function, first and count of captures". Reading: the function is a plain index.
    if code == CREATE_FUNCTION:
        return function >= functions or bad_run(start, count, places)
    return False


# Refusal 3: table, "a code, flag, number, index or reason bit lies outside its range, or a run of places
# passes their end".
def out_of_range(words, sections):
    identifiers, places, functions = len(sections[0]), len(sections[3]), len(sections[4])
    # "options (bit 0 ..., bit 1 ...)".
    if words[1] > 3:
        return True
    # "next number 1..512".
    if not 1 <= words[2] <= 512:
        return True
    # "lvalue's place index".
    if words[3] >= places:
        return True
    # "own function + 1 or 0".
    if words[4] > functions:
        return True
    for flags, name, _, _ in sections[0]:
        # "flags (1 ref, 2 hoisted), name 1..512 or 0, access start, end".
        if flags > 3 or name > 512:
            return True
    for number, kind, reasons in sections[1]:
        # "values: number, kind, reasons"; "Value numbers are 1..1023"; "Kinds 0..5"; "Reasons 0..11: ...;
        # bit n is reason n".
        if number == 0 or bad_number(number, identifiers) or kind > 5 or reasons >> 12:
            return True
    for identifier, value in sections[2]:
        # "pairs: identifier, value"; "value 0 (...) means defined with an empty set".
        if identifier >= identifiers or bad_number(value, identifiers):
            return True
    for identifier, effect, reactive, _, _ in sections[3]:
        # "places: identifier, `Effect` in declared order from 0, reactive 0 or 1, start, end"; the Rust
        # declares eight, Unknown to Store. Any two words are a span or none.
        if identifier >= identifiers or effect > 7 or reactive > 1:
            return True
    for flags, first, context, start, inside in sections[4]:
        # "flags (1 effects known, 2 tracked side effect; 2, and any place mutated inside, needs 1, else 3)".
        if flags > 3 or flags == 2 or (inside > 0 and flags & 1 == 0):
            return True
        # "first and count of context places (16), first and count of places mutated inside (32)".
        if bad_run(first, context, places) or bad_run(start, inside, places):
            return True
    return any(bad_candidate(candidate, places, functions) for candidate in sections[5])


# Whether a fresh number stands where the session hasn't handed it out yet.
# Values and pairs share this rule; 0 and 512 + i are no fresh numbers.
def too_fresh(number, next_number):
    # Table: 4, "a fresh number not below next"; "1..511 are fresh".
    return 1 <= number <= 511 and number >= next_number


# Refusal 4: table, "two entries of one key, wrong order, an unused word not zero, or a fresh number not
# below next".
def out_of_order(words, sections):
    next_number = words[2]
    for flags, _, start, end in sections[0]:
        # "access start, end (both words zero if not hoisted)".
        if flags & 2 == 0 and (start or end):
            return True
    numbers = [number for number, _, _ in sections[1]]
    # "values: number, kind, reasons, ascending"; table: "two entries of one key".
    if any(low >= high for low, high in zip(numbers, numbers[1:])):
        return True
    # "pairs: identifier, value, ascending"; here the whole pair is the key.
    if any(low >= high for low, high in zip(sections[2], sections[2][1:])):
        return True
    # "value 0, the only one of its identifier (else 4)"; a second 0 is a pair twice, caught above.
    filled = {identifier for identifier, value in sections[2] if value != 0}
    if any(value == 0 and identifier in filled for identifier, value in sections[2]):
        return True
    if any(too_fresh(number, next_number) for number in numbers):
        return True
    if any(too_fresh(value, next_number) for _, value in sections[2]):
        return True
    for _, first, context, start, inside in sections[4]:
        # "Unused words are zero; the first of a run with count 0 is unused".
        if (context == 0 and first) or (inside == 0 and start):
            return True
    for candidate in sections[5]:
        # "Of an Apply no word but the code is tested".
        if candidate[0] == APPLY:
            continue
        # "Unused words are zero".
        parts = PARTS[candidate[0]]
        if any(candidate[at] for at in range(1, 8) if at not in parts):
            return True
        # "the first of a run with count 0 is unused".
        if candidate[0] == CREATE_FUNCTION and candidate[7] == 0 and candidate[6]:
            return True
    return False


# The refusal that an image earns, or 0.
# "Order 1 to 5 over the whole input", so each class is asked of everything before the next.
def refusal(data):
    if wrong_length(data):
        return 1
    words = struct.unpack("<%dI" % (len(data) // 4), data)
    sections = split(words)
    if sections is None or count_above(sections):
        return 2
    if out_of_range(words, sections):
        return 3
    if out_of_order(words, sections):
        return 4
    # Table: 5, "a candidate is Apply".
    if any(candidate[0] == APPLY for candidate in sections[5]):
        return 5
    return 0
