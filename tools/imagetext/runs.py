"""Runs of places: context places, places mutated inside, captures."""

from names import NO

from .atoms import number, show_number
from .problem import quoted


# Takes a run after its word (`context`, `inside`, `captures`), or the empty run if that is not there.
# FIRST alone is one place; FIRST to LAST counts the places; FIRST count N is what the image holds.
def run(line, labels, word):
    if not line.skip(word):
        return [0, 0]
    first_word = line.peek()
    first = labels.take(line, "place")
    if line.skip("count"):
        return [first, number(line, "the count of places in the run")]
    if not line.skip("to"):
        return [first, 1]
    last_word = line.peek()
    last = labels.take(line, "place")
    if last < first:
        line.fail("the run goes from place %s, number %d, back to place %s, number %d; expected the first "
                  "place, then the last" % (quoted(first_word), first, quoted(last_word), last))
    if last - first + 1 > NO:
        line.fail("the run of %d places is too long; expected a count that fits 32 bits" % (last - first + 1))
    return [first, last - first + 1]


# A run as words of its line, none for the empty run.
# The first of an empty run is unused; where it is not zero it is shown with the count 0.
def show_run(made, word, first, count):
    if not first and not count:
        return []
    if not count or first + count > made.counts["place"]:
        return [word, made.show(first, "place"), "count", show_number(count)]
    shown = [word, made.show(first, "place")]
    return shown + ["to", made.show(first + count - 1, "place")] if count > 1 else shown
