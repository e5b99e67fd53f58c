"""The lines of the header, read and shown: edition, options, next, lvalue, own."""

from names import NO

from .atoms import bits, number, show_bits, show_number
from .problem import Problem

# The two options of document 01, by bit, without the `enable_` that both begin with.
OPTIONS = ["preserve_existing_memoization_guarantees", "transitively_freeze_function_expressions"]

LINES = ["edition", "options", "next", "lvalue", "own"]
NEEDED = {"next": "`next N`, the first fresh number to hand out",
          "lvalue": "`lvalue PLACE`, the place that the instruction defines"}


class Header:
    """The five first words of an image while its lines are read."""

    # What no line says: edition 1, no options, no own function.
    # `next` and `lvalue` must be said.
    def __init__(self):
        self.words = {"edition": 1, "options": 0, "own": 0}
        self.lines = {}

    # Reads one line of the header.
    # Each line stands at most once, so that the text says one thing.
    def read(self, line, labels, name):
        if name in self.lines:
            line.fail("`%s` stands on line %d already; expected it once" % (name, self.lines[name]))
        self.lines[name] = line.number
        if name == "options":
            word = bits(line, OPTIONS, "option")
        elif name == "lvalue":
            word = labels.take(line, "place")
        elif name == "own":
            word = labels.take(line, "function") + 1
            if word > NO:
                line.fail("the function's number is too large; expected at most %d, since the image holds "
                          "it plus 1" % (NO - 1))
        else:
            word = number(line, "a number for `%s`" % name)
        line.end("the end of the line")
        self.words[name] = word

    # The five words; `last` is the last line of the text, where a missing line would have to stand.
    # Nothing is made up for a line that must be there.
    def done(self, last):
        for name, expected in NEEDED.items():
            if name not in self.lines:
                raise Problem(last, "the text has no line `%s`; expected %s" % (name, expected))
        return [self.words[name] for name in LINES]


# The header's lines for its words after the edition, which is 1 wherever an image can be shown.
# What a reader puts in anyway is left out.
def show_header(words, made):
    options, next_number, lvalue, own = words
    shown = [["options", show_bits(options, OPTIONS)]] if options else []
    shown += [["next", show_number(next_number)], ["lvalue", made.show(lvalue, "place")]]
    return shown + ([["own", made.show(own - 1, "function")]] if own else [])
