"""The smallest parts of a line, read and shown: numbers, names, sets of names, spans."""

import re

from names import NO, NO_SPAN

from .problem import listed, quoted

PLAIN = re.compile(r"0[xX][0-9A-Fa-f]+|[0-9]+")
SPAN = re.compile(r"(.*?)\.\.(.*)")


# Whether a word is a plain number.
# A label never begins with a digit, so the two cannot be mixed up.
def is_number(word):
    return PLAIN.fullmatch(word) is not None


# The number that a word says, decimal or hexadecimal; `what` says what it is for.
# The only test of a number: that it fits 32 bits. Digits are counted first, since they may be very many.
def number_of(line, word, what):
    if not is_number(word):
        line.fail("%s is no number; expected %s" % (quoted(word), what))
    base, digits = (16, word[2:]) if word[:2] in ("0x", "0X") else (10, word)
    digits = digits.lstrip("0") or "0"
    if len(digits) > 10 or int(digits, base) > NO:
        line.fail("the number %s is too large; expected at most %d, so that it fits 32 bits" % (
            quoted(word), NO))
    return int(digits, base)


# Takes a number from the line.
# Numbers stand for themselves, whatever their range is in an image.
def number(line, what):
    return number_of(line, line.take(what), what)


# A number as the text shows it.
# FFFFFFFF stands alone in half of a span, where ten digits would hide it.
def show_number(value):
    return "0xFFFFFFFF" if value == NO else str(value)


# Takes a name of a list, or a number in its place; names are numbered from `first` on.
# An unknown name is answered with the whole list.
def named(line, names, what, first=0):
    word = line.take("the %s: %s, or a number" % (what, listed(names)))
    if word in names:
        return names.index(word) + first
    if is_number(word):
        return number_of(line, word, what)
    line.fail("%s is no %s; expected %s, or a number" % (quoted(word), what, listed(names)))


# A number by its name, or as a number where it has none.
# The other direction of `named`.
def show_named(value, names, first=0):
    return names[value - first] if first <= value < first + len(names) else show_number(value)


# Takes a set of names to the end of the line: `-` for none, one number for all bits, or the names.
# Bit n is name n; a name that stands twice is a slip.
def bits(line, names, what):
    word = line.take("the %ss: - for none, one number, or some of %s" % (what, listed(names)))
    if word == "-":
        return 0
    if is_number(word):
        return number_of(line, word, what)
    line.at -= 1
    found = 0
    while line.peek():
        name = line.take(what)
        if name not in names:
            line.fail("%s is no %s; expected %s, or one number for all of them" % (
                quoted(name), what, listed(names)))
        if found >> names.index(name) & 1:
            line.fail("the %s %s stands twice in this line; expected each one once" % (what, name))
        found |= 1 << names.index(name)
    return found


# A set of names as the text shows it, a number where a bit has no name.
# The other direction of `bits`.
def show_bits(value, names):
    if value >> len(names):
        return show_number(value)
    return " ".join(name for n, name in enumerate(names) if value >> n & 1) or "-"


# Whether a word looks like a span.
# A span may be left out, so it is found by its look.
def is_span(word):
    return word == "-" or ".." in word


# Takes a span: START..END, or - for no span at all.
# Any two numbers are a span; only FFFFFFFF twice is none, and is what - stands for.
def span(line):
    what = "a span START..END, or - for none"
    word = line.take(what)
    if word == "-":
        return NO_SPAN
    parts = SPAN.fullmatch(word)
    if not parts or not all(is_number(part) for part in parts.groups()):
        line.fail("%s is no span; expected START..END with two numbers, or - for none" % quoted(word))
    return tuple(number_of(line, part, what) for part in parts.groups())


# A span as the text shows it.
# Absent is - here as in a listing.
def show_span(start, end):
    return "-" if (start, end) == NO_SPAN else show_number(start) + ".." + show_number(end)
