"""Labels of identifiers, places and functions, and the numbers that they stand for."""

import re

from names import NO, OWN

from .atoms import is_number, number_of, show_number
from .problem import quoted

LABEL = re.compile(r"[A-Za-z_][A-Za-z0-9_]*")
SORTS = ["identifier", "place", "function"]


class Labels:
    """The labels of one text, by sort; each sort has its own, numbered in the order of the lines."""

    # Nothing is labelled yet.
    # `numbers` leads from a label to its number, `lines` to the line that has it.
    def __init__(self):
        self.numbers = {sort: {} for sort in SORTS}
        self.lines = {sort: {} for sort in SORTS}

    # Takes a new label of a sort from its line.
    # Two places with one label could not be told apart.
    def define(self, line, sort):
        word = line.take("a label for this " + sort)
        if not LABEL.fullmatch(word):
            line.fail("%s is no label; expected a letter or _, then letters, digits or _" % quoted(word))
        if word in self.numbers[sort]:
            line.fail("the label %s stands on line %d already; expected another label for this %s" % (
                quoted(word), self.lines[sort][word], sort))
        self.numbers[sort][word] = len(self.numbers[sort])
        self.lines[sort][word] = line.number

    # The number that a word stands for: a label of this sort, or a plain number.
    # A label of another sort is the likeliest slip, so the sentence says so.
    def number_of(self, line, word, sort):
        if is_number(word):
            return number_of(line, word, "a number of " + sort)
        if word in self.numbers[sort]:
            return self.numbers[sort][word]
        others = [other for other in SORTS if word in self.numbers[other]]
        what = "is the label of a line `%s`, not of a line `%s`" % (others[0], sort) if others else "is unknown"
        line.fail("%s %s; expected the label of a line `%s`, or a number" % (quoted(word), what, sort))

    # Takes a label or a number of this sort from the line.
    # Every reference goes through here.
    def take(self, line, sort):
        return self.number_of(line, line.take("the label of a line `%s`, or a number" % sort), sort)

    # Takes a value number: a plain number, or own(IDENTIFIER) for 512 + its number.
    # Only the sum must fit 32 bits.
    def value(self, line):
        what = "a value number such as 1, or own(IDENTIFIER)"
        word = line.take(what)
        if not (word.startswith("own(") and word.endswith(")")):
            return number_of(line, word, what)
        identifier = self.number_of(line, word[4:-1], "identifier")
        if identifier + OWN > NO:
            line.fail("512 + %d is too large; expected at most %d, so that it fits 32 bits" % (identifier, NO))
        return identifier + OWN


class Made:
    """Labels that the disassembler makes: i0, i1, .., p0, .., f0, .. up to the counts of an image."""

    # Only the counts are needed.
    # A number past its count is shown as a number, so it has no label.
    def __init__(self, identifiers, places, functions):
        self.counts = dict(zip(SORTS, (identifiers, places, functions)))

    # The label of a number, or the number itself past the end.
    # The other direction of `Labels.take`.
    def show(self, number, sort):
        return "%s%d" % (sort[0], number) if number < self.counts[sort] else show_number(number)

    # A value number, 512 + i by its identifier.
    # The other direction of `Labels.value`.
    def show_value(self, number):
        own = 0 <= number - OWN < self.counts["identifier"]
        return "own(%s)" % self.show(number - OWN, "identifier") if own else show_number(number)
