"""Damaged images without a stated refusal: mutations of valid ones, and random byte strings.

What such an image earns, the plain model says (plain.py); a mutation may well be valid. Everything comes
from the given random numbers, so a seed gives the same images always.

    mutated(rng)      (tag, bytes), one to three mutations of a valid image
    strings(rng)      (tag, bytes), a byte string of an interesting length, some with a right header
"""

import os
import sys

sys.path.insert(0, os.path.join(os.path.dirname(os.path.abspath(__file__)), "..", "gen"))

import damage
import generate
import image_profiles
from names import *
from plain import PARTS
from sheet import *

# Neighbours of the limits of document 01, and of 2^31 and 2^32.
EDGES = [0, 1, 2, 3, 4, 5, 6, 7, 8, 9, 11, 12, 13, 14, 15, 16, 17, 18, 31, 32, 33, 63, 64, 65, 255, 256,
         511, 512, 513, 514, 1022, 1023, 1024, 1025, 0xFFF, 0x1000, 0x10000, 0x7FFFFFFF, 0x80000000,
         0x80000001, 0xFFFFFFFE, NO]

# ------------------------------------------------------------------ new words


# Numbers that matter in this image: its next number, the ends of its lists, the last own number.
# One step on either side of them is where a test can be off by one.
def landmarks(words):
    counts = [words[5 + 2 * k] for k in range(6)]
    return [words[2], counts[0], counts[3], counts[4], OWN + counts[0], 16, 32, 64, 512]


# A new word for an old one: small, at an edge, FFFFFFFF, another word of the image, a flipped bit.
# `words` is the whole image, whose landmarks and other words are used.
def new_word(rng, words, old):
    pick = rng.randrange(8)
    if pick == 0:
        return rng.randrange(9)
    if pick == 1:
        return rng.choice(EDGES)
    if pick == 2:
        return NO
    if pick == 3:
        return rng.choice(words)
    if pick == 4:
        return old ^ (1 << rng.choice([0, 0, 1, 1, 2, 3, 4, 8, 9, 10, 12, 16, 30, 31]))
    if pick == 5:
        return (rng.choice(landmarks(words)) + rng.choice([-1, 0, 0, 1])) & NO
    if pick == 6:
        return (old + rng.choice([-2, -1, 1, 2])) & NO
    return 0


# ------------------------------------------------------------ kinds of mutation


# Makes a mutation of bytes out of a change of words.
# It doesn't apply to bytes that are no words, or that lost their header.
def on_words(change):
    def act(rng, data):
        if len(data) % 4 or len(data) < 4 * HEADER:
            return None
        words = unpack(data)
        return None if change(rng, words) is False else pack(words)
    return act


# Makes a mutation of bytes out of an edit of header and sections; counts and offsets follow.
# It doesn't apply where the layout is broken already.
def on_sections(edit):
    def act(rng, data):
        parts = take_apart(data)
        if parts is None or edit(rng, *parts) is False:
            return None
        return put_together(*parts)
    return act


# A section that has records, or None.
# Small sections are as likely as large ones, so candidates are hit beside many places.
def some_section(rng, sections, least=1):
    fit = [k for k in range(6) if len(sections[k]) >= least]
    return rng.choice(fit) if fit else None


# ------------------------------------------------------------- changes of words


# One to three words anywhere become others.
# Header and body alike.
def any_words(rng, words):
    for _ in range(rng.choice([1, 1, 2, 3])):
        at = rng.randrange(len(words))
        words[at] = new_word(rng, words, words[at])


# One word of the header becomes another.
# Most of these are of class 2 or 3.
def head_word(rng, words):
    at = rng.randrange(HEADER)
    words[at] = new_word(rng, words, words[at])


# A word is put in somewhere, the header stays.
# All behind it moves by one.
def word_in(rng, words):
    words.insert(rng.randrange(len(words) + 1), rng.choice([0, 1, NO, rng.choice(words)]))


# A word is taken out somewhere, the header stays.
# All behind it moves by one.
def word_out(rng, words):
    if len(words) <= HEADER:
        return False
    del words[rng.randrange(len(words))]


# Two words change places.
# Mostly within one record or its neighbour.
def words_swapped(rng, words):
    a = rng.randrange(len(words))
    b = min(len(words) - 1, a + rng.choice([1, 1, 2, 3, 4, 5, 8]))
    words[a], words[b] = words[b], words[a]


# A count is off by a little, or so much that count times size wraps; nothing else follows.
# Inconsistent with the offsets.
def count_off(rng, words):
    k = rng.randrange(6)
    by = rng.choice([-1, 1, 2, -2, 0x20000000, 0x40000000, 0x80000000, 0x33333333, 0x55555555])
    words[5 + 2 * k] = (words[5 + 2 * k] + by) & NO


# An offset is off by a little, alone or together with all that follow.
# Without the words moving along, so there is a gap or an overlap.
def offset_off(rng, words):
    k, by = rng.randrange(6), rng.choice([-8, -5, -3, -1, 1, 2, 4, 17, 0x80000000])
    for later in range(k, 6 if rng.random() < 0.5 else k + 1):
        words[6 + 2 * later] = (words[6 + 2 * later] + by) & NO


# A gap before a section: a word is put in and all later offsets move along.
# The offsets tell the truth, yet there is a gap.
def gap_in(rng, words):
    k = rng.randrange(6)
    at = words[6 + 2 * k]
    if at > len(words):
        return False
    words.insert(at, rng.choice([0, 1, NO]))
    for later in range(k, 6):
        words[6 + 2 * later] = (words[6 + 2 * later] + 1) & NO


# A count changes and all later offsets follow, but the body doesn't.
# The end of the image doesn't fit then.
def count_and_offsets(rng, words):
    k, by = rng.randrange(6), rng.choice([-2, -1, 1, 1, 2])
    words[5 + 2 * k] = (words[5 + 2 * k] + by) & NO
    for later in range(k + 1, 6):
        words[6 + 2 * later] = (words[6 + 2 * later] + by * RECORD_WORDS[k]) & NO


# Two counts change so that the length stays, and the offsets follow.
# The layout is right, but many words are now read as something else.
def border_moved(rng, words):
    a, b = rng.sample(range(6), 2)
    unit = RECORD_WORDS[a] * RECORD_WORDS[b]
    if words[5 + 2 * b] * RECORD_WORDS[b] < unit:
        return False
    words[5 + 2 * a] = (words[5 + 2 * a] + unit // RECORD_WORDS[a]) & NO
    words[5 + 2 * b] -= unit // RECORD_WORDS[b]
    at = HEADER
    for k in range(6):
        words[6 + 2 * k] = at
        at = (at + words[5 + 2 * k] * RECORD_WORDS[k]) & NO


# Counts and offsets of two sections change places.
# Header words alone.
def headings_swapped(rng, words):
    a, b = rng.sample(range(6), 2)
    which = rng.choice([(0,), (1,), (0, 1)])
    for w in which:
        i, j = 5 + 2 * a + w, 5 + 2 * b + w
        words[i], words[j] = words[j], words[i]


# ------------------------------------------------------------ changes of bytes


# Bytes are cut from the end.
# Whole words or not.
def end_cut(rng, data):
    by = rng.choice([1, 2, 3, 4, 4, 8, 12, 20, 32, rng.randrange(1, len(data) + 1)])
    return data[:max(0, len(data) - by)]


# Bytes are added at the end.
# Whole words or not, zeros or not.
def end_added(rng, data):
    by = rng.choice([1, 2, 3, 4, 4, 8, 12, 20, 32, 64])
    return data + (b"\0" * by if rng.random() < 0.5 else rng.randbytes(by))


# Zeros up to one of the lengths around the limit.
# 65,536 is class 2 then, above it class 1.
def filled_up(rng, data):
    size = rng.choice([65532, 65535, 65536, 65537, 65540, 65600])
    return data + b"\0" * (size - len(data)) if len(data) < size else None


# ----------------------------------------------------------- edits of sections


# One word of one record becomes another, the section drawn first.
# So a lone candidate is hit as often as fifty places.
def field_word(rng, head, sections):
    k = some_section(rng, sections)
    if k is None:
        return False
    record = rng.choice(sections[k])
    at = rng.randrange(len(record))
    words = unpack(put_together(head, sections))
    record[at] = new_word(rng, words, record[at])


# Two records of a section change places.
# Wrong order among values and pairs, another order elsewhere.
def records_swapped(rng, head, sections):
    k = some_section(rng, sections, 2)
    if k is None:
        return False
    a, b = rng.sample(range(len(sections[k])), 2)
    sections[k][a], sections[k][b] = sections[k][b], sections[k][a]


# A record stands twice, beside itself or at the end.
# Two entries of one key among values and pairs.
def record_doubled(rng, head, sections):
    k = some_section(rng, sections)
    if k is None:
        return False
    at = rng.randrange(len(sections[k]))
    where = rng.choice([at, len(sections[k])])
    sections[k].insert(where, list(sections[k][at]))


# A record is taken out; what named it now names another or nothing.
# Counts and offsets follow.
def record_out(rng, head, sections):
    k = some_section(rng, sections)
    if k is None:
        return False
    del sections[k][rng.randrange(len(sections[k]))]


# A record becomes zeros, or FFFFFFFF, or takes a part of another one of its section.
# Several words of one record at once.
def record_mixed(rng, head, sections):
    k = some_section(rng, sections)
    if k is None:
        return False
    record, other = rng.choice(sections[k]), rng.choice(sections[k])
    cut = rng.randrange(len(record))
    new = rng.choice([[0] * len(record), [NO] * len(record), list(other)])
    record[cut:] = new[cut:]


# A record of zeros is put in.
# A valid one among identifiers, places and functions.
def record_in(rng, head, sections):
    k = rng.randrange(6)
    sections[k].insert(rng.randrange(len(sections[k]) + 1), [0] * RECORD_WORDS[k])


# A section is emptied, or cut to half.
# What points into it may point past its end.
def section_cut(rng, head, sections):
    k = some_section(rng, sections)
    if k is None:
        return False
    del sections[k][rng.choice([0, len(sections[k]) // 2]):]


# The candidates come in another order, or some of them again.
# Mostly valid, with refusals 6 and 7 among the answers.
def candidates_dealt(rng, head, sections):
    if not sections[CANDIDATES]:
        return False
    dealt = [list(rng.choice(sections[CANDIDATES])) for _ in range(rng.randrange(1, 12))]
    sections[CANDIDATES] = dealt[:64]


# A candidate takes another code, with its other words kept, or those that are unused then made zero.
# The latter is valid at times.
def code_changed(rng, head, sections):
    if not sections[CANDIDATES]:
        return False
    record = rng.choice(sections[CANDIDATES])
    record[0] = rng.choice([rng.randrange(20), rng.randrange(14), APPLY, CREATE_FUNCTION, RENDER])
    if rng.random() < 0.6 and record[0] in PARTS:
        for at in range(1, 8):
            if at not in PARTS[record[0]]:
                record[at] = 0


# A candidate of any code becomes wrong in one word: an unused one isn't zero, or a used one is at the end
# of its range or just past it. Every code and word has the same chance, whatever the image has.
def candidate_word(rng, head, sections):
    places, functions = len(sections[PLACES]), len(sections[FUNCTIONS])
    codes = [c for c in PARTS if c not in DIAGNOSED and (functions or c != CREATE_FUNCTION)]
    if not places or len(sections[CANDIDATES]) > 63:
        return False
    record = random_candidate(rng, rng.choice(codes), places, functions)
    at = rng.randrange(1, 8)
    if at in PARTS[record[0]]:
        ends = {1: places, 2: places, 3: 6 if record[0] == CREATE else 2, 4: 12, 5: functions, 6: places, 7: 17}
        record[at] = rng.choice([ends[at] - 1, ends[at], ends[at], NO])
    else:
        record[at] = rng.choice([1, 1, 2, 17, 0x80000000, NO])
    sections[CANDIDATES].insert(rng.randrange(len(sections[CANDIDATES]) + 1), record)


# An Apply is put in among the candidates, of zeros, small words or FFFFFFFF.
# No word of it but the code is tested.
def apply_in(rng, head, sections):
    rest = rng.choice([[0] * 7, [NO] * 7, [rng.randrange(40) for _ in range(7)]])
    sections[CANDIDATES].insert(rng.randrange(len(sections[CANDIDATES]) + 1), [APPLY] + rest)


# The next number becomes one beside a number that is used, or beside an end of its range.
# A fresh number must be below it.
def next_near(rng, head, sections):
    used = [r[0] for r in sections[VALUES]] + [r[1] for r in sections[PAIRS]]
    head[2] = (rng.choice(used + [1, 511, 512]) + rng.choice([-1, 0, 1])) & NO


# A number of a value or pair becomes one at an edge: 0, next, 511, the last own number and past it.
# At times the section is sorted again, so that only the range can be wrong.
def number_near(rng, head, sections):
    k = rng.choice([VALUES, PAIRS])
    if not sections[k]:
        return False
    last = OWN + len(sections[IDENTIFIERS])
    number = rng.choice([0, 1, head[2] - 1, head[2], head[2] + 1, 510, 511, 512, last - 1, last, 1023, 1024])
    rng.choice(sections[k])[0 if k == VALUES else 1] = number & NO
    if rng.random() < 0.6:
        sections[k].sort()


# A pair or value is put in at its place in the order.
# Often valid; a 0 beside others, or a double, at times.
def entry_in(rng, head, sections):
    count = len(sections[IDENTIFIERS])
    number = rng.choice([0, rng.randrange(1, 6), head[2] - 1, OWN + rng.randrange(count + 1)]) & NO
    if rng.random() < 0.5:
        sections[PAIRS].append([rng.randrange(count + 1), number])
        sections[PAIRS].sort()
    else:
        sections[VALUES].append([number, rng.randrange(7), 1 << rng.randrange(13)])
        sections[VALUES].sort()


# A run of a function or candidate gets a first and count at an edge.
# Up to the last place and one past it, at the limits and one above.
def run_near(rng, head, sections):
    runs = [(r, 1, 16) for r in sections[FUNCTIONS]] + [(r, 3, 32) for r in sections[FUNCTIONS]]
    runs += [(r, 6, 16) for r in sections[CANDIDATES] if r[0] == CREATE_FUNCTION or rng.random() < 0.2]
    if not runs:
        return False
    record, at, limit = rng.choice(runs)
    places = len(sections[PLACES])
    count = rng.choice([0, 1, 2, limit - 1, limit, limit, limit + 1, places, places + 1, NO])
    first = rng.choice([0, 1, places - count, places - count, places - count + 1, places, NO, NO - count + 1])
    record[at], record[at + 1] = first & NO, count & NO


# The flags of an identifier or function change, with or without the words that hang on them.
# Hoisted needs no access words, not hoisted forbids them; 2 of a function needs 1.
def flags_changed(rng, head, sections):
    k = rng.choice([IDENTIFIERS, FUNCTIONS])
    if not sections[k]:
        return False
    record = rng.choice(sections[k])
    record[0] = rng.choice([0, 1, 2, 3, 3, 4, 0x80000000 | record[0]])
    if rng.random() < 0.4:
        record[1:] = [rng.choice([0, 0, 1, NO]) for _ in record[1:]]


# A section is filled to its limit or one above with records of zeros.
# With Renders of place 0 among the candidates.
def filled_section(rng, head, sections):
    k = rng.choice([IDENTIFIERS, FUNCTIONS, FUNCTIONS, CANDIDATES, CANDIDATES])
    limit = 512 if k == IDENTIFIERS else 64
    filler = [RENDER] + [0] * 7 if k == CANDIDATES else [0] * RECORD_WORDS[k]
    wanted = limit + rng.choice([0, 0, 1])
    while len(sections[k]) < wanted:
        sections[k].append(list(filler))


# The lvalue, own function or options at an edge.
# The header words that are neither counts nor the next number.
def head_near(rng, head, sections):
    at = rng.choice([1, 3, 4])
    end = {1: 4, 3: len(sections[PLACES]), 4: len(sections[FUNCTIONS]) + 1}[at]
    head[at] = rng.choice([0, end - 1, end - 1, end, NO]) & NO


# Weight, name, mutation.
# Those that keep the layout weigh most, for the other ones are all of class 1 or 2.
MUTATIONS_BY_WEIGHT = [
    (5, "any words", on_words(any_words)), (3, "header word", on_words(head_word)),
    (1, "word in", on_words(word_in)), (1, "word out", on_words(word_out)),
    (3, "words swapped", on_words(words_swapped)), (1, "count off", on_words(count_off)),
    (1, "offset off", on_words(offset_off)), (1, "gap", on_words(gap_in)),
    (1, "count and offsets", on_words(count_and_offsets)), (2, "border moved", on_words(border_moved)),
    (1, "headings swapped", on_words(headings_swapped)),
    (1, "end cut", end_cut), (1, "end added", end_added), (0.1, "filled up", filled_up),
    (12, "field", on_sections(field_word)), (3, "records swapped", on_sections(records_swapped)),
    (3, "record doubled", on_sections(record_doubled)), (3, "record out", on_sections(record_out)),
    (2, "record mixed", on_sections(record_mixed)), (2, "record in", on_sections(record_in)),
    (1, "section cut", on_sections(section_cut)), (4, "candidates dealt", on_sections(candidates_dealt)),
    (4, "code changed", on_sections(code_changed)), (6, "candidate word", on_sections(candidate_word)),
    (3, "Apply in", on_sections(apply_in)),
    (3, "next near", on_sections(next_near)), (4, "number near", on_sections(number_near)),
    (4, "entry in", on_sections(entry_in)), (4, "run near", on_sections(run_near)),
    (3, "flags", on_sections(flags_changed)), (0.5, "filled section", on_sections(filled_section)),
    (2, "header near", on_sections(head_near)),
]
WEIGHTS = [weight for weight, _, _ in MUTATIONS_BY_WEIGHT]


# A valid image to mutate: of the profiles, at times a rich base of the damage table or a giant.
# The rich bases have every section and every code.
def some_base(rng):
    pick = rng.random()
    if pick < 0.75:
        return generate.one("image", rng)[1].bytes()
    if pick < 0.99:
        return damage.rich(rng).bytes()
    return rng.choice(image_profiles.GIANTS)[1](rng).bytes()


# One mutated image as (tag, bytes).
# One mutation mostly, else two or three, each on what the one before left.
def mutated(rng):
    data, names = some_base(rng), []
    wanted = rng.choice([1, 1, 1, 2, 2, 3])
    while len(names) < wanted:
        _, name, act = rng.choices(MUTATIONS_BY_WEIGHT, WEIGHTS)[0]
        if len(data) == 0:
            break
        new = act(rng, data)
        if new is not None:
            data = new
            names.append(name)
    return " + ".join(names), data


# ---------------------------------------------------------- random byte strings

# Lengths around 0, the header, the shortest accepted image and the greatest length.
SHORT = [0, 1, 2, 3, 4, 7, 8, 16, 60, 63, 64, 65, 66, 67, 68, 69, 70, 71, 72, 73, 76, 80, 88, 100, 103, 104,
         105, 106, 107, 108, 112, 116, 124, 128, 156, 200, 256, 400, 1000, 1024, 1025, 4096]
LONG = [32768, 65528, 65532, 65533, 65534, 65535, 65536, 65536, 65537, 65538, 65539, 65540, 65544, 66000,
        70000, 131072, 262144]


# So many bytes of one of several sorts.
# Small words come closest to what an image holds.
def filling(rng, size):
    pick = rng.randrange(5)
    if pick == 0:
        return b"\0" * size
    if pick == 1:
        return rng.choice([b"\xff", b"\1", b" ", b"0"]) * size
    if pick == 2:
        top = rng.choice([2, 4, 8, 20])
        return pack([rng.randrange(top) for _ in range(size // 4 + 1)])[:size]
    return rng.randbytes(size)


# Counts whose records fill so many words exactly.
# The limits are kept mostly; pairs and values take up what is left.
def counts_for(rng, words):
    counts = [0] * 6
    for k in rng.sample([0, 3, 4, 5], 4):
        limit = 64 if k in (4, 5) else 512
        fit = words // RECORD_WORDS[k]
        counts[k] = min(fit, rng.choice([0, 1, rng.randrange(limit + 2), limit, fit]))
        words -= counts[k] * RECORD_WORDS[k]
    if words == 1:
        used = [k for k in (0, 3, 4, 5) if counts[k]]
        if not used:
            return counts
        counts[used[0]] -= 1
        words += RECORD_WORDS[used[0]]
    thirds = rng.randrange(words // 3 + 1)
    if (words - 3 * thirds) % 2:
        thirds += 1 if words >= 3 * thirds + 3 else -1
    counts[1], counts[2] = thirds, (words - 3 * thirds) // 2
    return counts


# A header with these counts and the offsets that they ask for.
# The five words before them are in range mostly.
def header_for(rng, counts):
    head = [1, rng.randrange(4), rng.randrange(1, 513), 0, 0]
    if rng.random() < 0.2:
        head[rng.randrange(5)] = rng.choice(EDGES)
    at = HEADER
    for k in range(6):
        head += [counts[k], at]
        at += counts[k] * RECORD_WORDS[k]
    return head


# A byte string of an interesting length, with nothing right, edition 1, or a whole right header.
# The body is whatever `filling` gives.
def raw_string(rng):
    size = rng.choice(SHORT if rng.random() < 0.8 else LONG)
    data = filling(rng, size)
    pick = rng.random()
    if pick < 0.5 or size < 4:
        return "bytes of length %d" % size, data
    if pick < 0.6 or not 4 * HEADER <= size <= 65536 or size % 4:
        return "edition 1, length %d" % size, pack([1]) + data[4:]
    head = header_for(rng, counts_for(rng, size // 4 - HEADER))
    return "right header, length %d" % size, pack(head) + data[4 * HEADER:]


# An image made up of records whose words lie in their ranges, drawn without any plan.
# Neither the profiles nor the damage table make such; most are valid, others have an Apply or a wrong word.
def made_up(rng):
    ids, places, functions = rng.choice([1, 2, 3, 8, 40, 512]), rng.randrange(1, 30), rng.randrange(5)
    next_number = rng.choice([1, 2, 5, 20, 511, 512])
    numbers = [n for n in range(1, min(next_number, 40))] + [OWN + i for i in range(min(ids, 40))]
    numbers += [n for n in (next_number - 1,) if n > 40]
    any_word = lambda: rng.choice([0, 1, 5, 9, NO, rng.getrandbits(32)])
    few = lambda most: min(len(numbers), rng.randrange(most))
    run = lambda most: (0, 0) if rng.random() < 0.2 else random_run(rng, places, most)
    identifiers = [[f, rng.randrange(513)] + ([any_word(), any_word()] if f & 2 else [0, 0])
                   for f in (rng.choice([0, 0, 0, 1, 2, 3]) for _ in range(ids))]
    values = [[n, rng.randrange(6), rng.getrandbits(12)] for n in sorted(rng.sample(numbers, few(12)))]
    pairs = []
    for i in sorted(rng.sample(range(ids), rng.randrange(min(ids, 10) + 1))):
        pairs += [[i, n] for n in sorted(rng.sample(numbers, few(6)))] or [[i, 0]]
    places_made = [[rng.randrange(ids), rng.randrange(8), rng.randrange(2)] +
                   ([NO, NO] if rng.random() < 0.3 else [any_word(), any_word()]) for _ in range(places)]
    functions_made = []
    for _ in range(functions):
        flags = rng.choice([0, 1, 3])
        functions_made.append([flags, *run(16), *(run(32) if flags else (0, 0))])
    codes = [c for c in PARTS if c not in DIAGNOSED and (functions or c != CREATE_FUNCTION)]
    candidates = [random_candidate(rng, rng.choice(codes), places, functions)
                  for _ in range(rng.randrange(20))]
    if rng.random() < 0.1:
        candidates.append([APPLY] + [any_word() for _ in range(7)])
    head = [1, rng.randrange(4), next_number, rng.randrange(places), rng.randrange(functions + 1)]
    data = put_together(head, [identifiers, values, pairs, places_made, functions_made, candidates])
    if rng.random() < 0.4:
        return "made up, a word changed", on_sections(field_word)(rng, data)
    return "made up", data


# A run of at least one place that ends at or before the last.
# First and count.
def random_run(rng, places, most):
    first = rng.randrange(places)
    return first, rng.randrange(1, min(most, places - first) + 1)


# A candidate of a code with all used words in range.
# The words that the code doesn't use are zero.
def random_candidate(rng, code, places, functions):
    start, count = (0, 0) if rng.random() < 0.3 else random_run(rng, places, 16)
    kind = {CREATE: 6, MUTATE: 2}.get(code, 1)
    full = [code, rng.randrange(places), rng.randrange(places), rng.randrange(kind), rng.randrange(12),
            rng.randrange(max(1, functions)), start, count]
    return [word if at == 0 or at in PARTS[code] else 0 for at, word in enumerate(full)]


# One byte string as (tag, bytes).
# A quarter is made up of records, the others are lengths and fillings.
def strings(rng):
    return made_up(rng) if rng.random() < 0.25 else raw_string(rng)
