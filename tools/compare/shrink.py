"""Looks for a small image that still shows a difference.

    shrink(data, same, tries, seconds)     the smallest found; same(data) says if the difference shows

Where the layout of the image is right, whole records are taken out and all that names later ones is
numbered anew; then words are made small. Where it isn't, bytes are taken out and words made zero. Every
step makes the image smaller, so it ends; the tries and the time are bounded besides.
"""

import time

from names import CREATE_FUNCTION, NO, OWN
from plain import PARTS
from sheet import *


# How large an image is: bytes, then words that aren't zero, then their sum.
# A step is taken only if it makes this smaller.
def size_of(data):
    words = unpack(data + b"\0" * (-len(data) % 4))
    return len(data), sum(1 for word in words if word), sum(words)


class Hunt:
    """The smallest image so far, and what is left of tries and time."""

    # Starts with an image that shows the difference.
    # `same` is asked at most `tries` times.
    def __init__(self, data, same, tries, seconds):
        self.best, self.same = data, same
        self.left, self.until = tries, time.monotonic() + seconds
        self.seen = {hash(data)}

    # Whether tries and time are used up.
    # All loops below end then.
    def over(self):
        return self.left <= 0 or time.monotonic() >= self.until

    # Tries an image; takes it and says True if it is smaller and the difference stays.
    # None, which some edits give, and what was tried before is no try.
    def attempt(self, data):
        if data is None or self.over() or hash(data) in self.seen or size_of(data) >= size_of(self.best):
            return False
        self.seen.add(hash(data))
        self.left -= 1
        if not self.same(data):
            return False
        self.best = data
        return True


# --------------------------------------------------------------- taking records out


# A function from an old index to a new one when the records in `gone` leave a list of `count`.
# None for one that leaves; an index past the end stays as far past it.
def renumbering(count, gone):
    new, table = 0, []
    for old in range(count):
        table.append(None if old in gone else new)
        new += old not in gone
    return lambda old: table[old] if old < count else old - (count - new)


# First and count of a run of places when some of them leave.
# A run that passes the end, or a first that is unused, isn't touched but for its distance to the end.
def run_without(first, count, places, gone, new):
    if count == 0 or first + count > places:
        return (new(first) or 0) if first >= places else first, count
    kept = [new(p) for p in range(first, first + count) if p not in gone]
    return (kept[0], len(kept)) if kept else (0, 0)


# Takes places out: what named one of them names the first place then.
# The lvalue, the runs of functions, and places and captures of candidates.
def without_places(head, sections, gone):
    places = len(sections[PLACES])
    new = renumbering(places, gone)
    head[3] = new(head[3]) or 0
    for r in sections[FUNCTIONS]:
        r[1:3] = run_without(r[1], r[2], places, gone, new)
        r[3:5] = run_without(r[3], r[4], places, gone, new)
    for r in sections[CANDIDATES]:
        parts = PARTS.get(r[0], ())
        for at in (1, 2):
            if at in parts:
                r[at] = new(r[at]) or 0
        if r[0] == CREATE_FUNCTION:
            r[6:8] = run_without(r[6], r[7], places, gone, new)


# Takes identifiers out: their pairs and own numbers leave, their places name the first identifier.
# The order of values and pairs stays.
def without_identifiers(head, sections, gone):
    count = len(sections[IDENTIFIERS])
    new = renumbering(count, gone)
    own = lambda number: OWN <= number < OWN + count
    leaves = lambda number: own(number) and number - OWN in gone
    moved = lambda number: OWN + new(number - OWN) if own(number) else number
    sections[VALUES] = [[moved(r[0])] + r[1:] for r in sections[VALUES] if not leaves(r[0])]
    sections[PAIRS] = [[new(r[0]), moved(r[1])] for r in sections[PAIRS]
                       if r[0] not in gone and not leaves(r[1])]
    for r in sections[PLACES]:
        r[0] = new(r[0]) or 0


# Takes functions out: what made one of them makes the first one then.
# An own function that leaves becomes none.
def without_functions(head, sections, gone):
    new = renumbering(len(sections[FUNCTIONS]), gone)
    if head[4]:
        own = new(head[4] - 1)
        head[4] = 0 if own is None else own + 1
    for r in sections[CANDIDATES]:
        if r[0] == CREATE_FUNCTION:
            r[5] = new(r[5]) or 0


RENUMBER = {PLACES: without_places, IDENTIFIERS: without_identifiers, FUNCTIONS: without_functions}


# The image without some records of a section, all else numbered anew.
# Values, pairs and candidates are named by nothing.
def without(data, section, gone):
    head, sections = take_apart(data)
    if section in RENUMBER:
        RENUMBER[section](head, sections, gone)
    sections[section] = [r for at, r in enumerate(sections[section]) if at not in gone]
    return put_together(head, sections)


# Takes records out of a section: halves first, single ones last.
# From the end, since later records lean on earlier ones.
def cut_records(hunt, section):
    step = max(1, len(take_apart(hunt.best)[1][section]) // 2)
    while True:
        end = len(take_apart(hunt.best)[1][section])
        while end > 0 and not hunt.over():
            start = max(0, end - step)
            hunt.attempt(without(hunt.best, section, set(range(start, end))))
            end = start
        if step == 1 or hunt.over():
            return
        step //= 2


# ------------------------------------------------------------------- making words small


# Gives the fresh numbers in use the numbers from 1 up, and next the one behind them.
# Their order stays, so values and pairs stay ascending.
def numbers_close(data):
    head, sections = take_apart(data)
    fresh = lambda number: 0 < number < OWN
    numbers = [r[0] for r in sections[VALUES]] + [r[1] for r in sections[PAIRS]]
    used = sorted({number for number in numbers if fresh(number)})
    for section, at in ((VALUES, 0), (PAIRS, 1)):
        for r in sections[section]:
            if fresh(r[at]):
                r[at] = used.index(r[at]) + 1
    head[2] = len(used) + 1
    return put_together(head, sections)


# Makes the words from `start` to `end` of an image zero.
# For many words at once.
def zeroed(data, start, end):
    return data[:4 * start] + b"\0" * (4 * (end - start)) + data[4 * end:]


# Makes words zero in halves down to single ones, from a given word on.
# The header of a right layout is left to the other steps.
def zero_words(hunt, first):
    step = max(1, len(hunt.best) // 8)
    while not hunt.over():
        for start in range(first, len(hunt.best) // 4, step):
            hunt.attempt(zeroed(hunt.best, start, min(len(hunt.best) // 4, start + step)))
        if step == 1:
            return
        step //= 2


# Makes single words smaller: 1, the half, one less.
# Counts and offsets among them just fail to be the same.
def lower_words(hunt):
    for at in list(range(1, 5)) + list(range(HEADER, len(hunt.best) // 4)):
        lower = True
        while lower and not hunt.over():
            words = unpack(hunt.best)
            lower = False
            for new in sorted({0, 1, words[at] // 2, words[at] - 1}):
                if 0 <= new < words[at]:
                    lower = hunt.attempt(pack(words[:at] + [new] + words[at + 1:]))
                    if lower:
                        break


# ------------------------------------------------------------------- images of any form


# Takes bytes out: halves in whole words first, single bytes last.
# For images whose layout isn't right.
def cut_bytes(hunt):
    step = len(hunt.best) // 8 * 4 or 1
    while not hunt.over():
        end = len(hunt.best)
        while end > 0 and not hunt.over():
            start = max(0, end - step)
            hunt.attempt(hunt.best[:start] + hunt.best[end:])
            end = start
        if step == 1:
            return
        step = step // 8 * 4 or 1


# One round over an image with a right layout.
# What leans on other records goes first.
def round_of_records(hunt):
    for section in (CANDIDATES, FUNCTIONS, PAIRS, VALUES, PLACES, IDENTIFIERS):
        cut_records(hunt, section)
    hunt.attempt(numbers_close(hunt.best))
    zero_words(hunt, HEADER)
    lower_words(hunt)


# One round over an image whose layout isn't right.
# Only whole words are made zero, and a last part of a word stays.
def round_of_bytes(hunt):
    cut_bytes(hunt)
    zero_words(hunt, 0)


# The smallest image found that still shows the difference; at worst the given one.
# Rounds go on as long as one of them achieves something.
def shrink(data, same, tries=2000, seconds=60.0):
    hunt = Hunt(data, same, tries, seconds)
    before = None
    while before != hunt.best and not hunt.over():
        before = hunt.best
        if take_apart(hunt.best) is None:
            round_of_bytes(hunt)
        else:
            round_of_records(hunt)
    return hunt.best
