"""The lines of identifiers, values, pairs, places and functions, read and shown.

A reader takes the words after the first one (and after the label) and gives the record's words;
a shower gives the line's words back, so the two stand side by side and can be compared.
"""

from names import EFFECT_NAMES, HOISTED, KIND_NAMES, KNOWN, NO_SPAN, REASON_NAMES, REF, TRACKED

from .atoms import (bits, is_number, is_span, named, number, show_bits, show_named, show_number, show_span,
                    span)
from .runs import run, show_run


# identifier LABEL [ref] [hoisted [SPAN]] [name N], or with `flags N [access SPAN]` in the middle.
# Without `hoisted` the access words are zero; the second form can say any flags and any access.
def identifier(line, labels):
    access = (0, 0)
    if line.skip("flags"):
        flags = number(line, "the flags of an identifier as a number")
        if line.skip("access"):
            access = span(line)
    else:
        flags = REF if line.skip("ref") else 0
        if line.skip("hoisted"):
            flags |= HOISTED
            access = span(line) if is_span(line.peek()) else NO_SPAN
    name = number(line, "the number of a name") if line.skip("name") else 0
    line.end("ref, hoisted with its span, name with its number, in this order, or the end of the line")
    return [flags, name, *access]


# The words of an identifier's line.
# Flags above 3, or an access of one that is not hoisted, need the second form.
def show_identifier(words, made):
    flags, name, start, end = words
    if flags <= REF | HOISTED and (flags & HOISTED or (start, end) == (0, 0)):
        shown = ["ref"] * bool(flags & REF) + ["hoisted"] * bool(flags & HOISTED)
        shown += [show_span(start, end)] if flags & HOISTED and (start, end) != NO_SPAN else []
    else:
        shown = ["flags", show_number(flags)]
        shown += ["access", show_span(start, end)] if (start, end) != (0, 0) else []
    return shown + (["name", show_number(name)] if name else [])


# value NUMBER KIND REASONS.
# Reasons are a set, so a number in their place is all of its bits.
def value(line, labels):
    words = [labels.value(line), named(line, KIND_NAMES, "kind"), bits(line, REASON_NAMES, "reason")]
    line.end("the end of the line after the reasons")
    return words


# The words of a value's line.
# No reasons are shown as -.
def show_value(words, made):
    return [made.show_value(words[0]), show_named(words[1], KIND_NAMES), show_bits(words[2], REASON_NAMES)]


# pair IDENTIFIER NUMBER, or `empty` for the number.
# Number 0 is no value: the identifier is defined and its set is empty.
def pair(line, labels):
    words = [labels.take(line, "identifier"), 0 if line.skip("empty") else labels.value(line)]
    line.end("the end of the line, since each value of a set has a line of its own")
    return words


# The words of a pair's line.
# The other direction of `pair`.
def show_pair(words, made):
    return [made.show(words[0], "identifier"), made.show_value(words[1]) if words[1] else "empty"]


# place LABEL IDENTIFIER [EFFECT] [reactive [N]] [SPAN].
# Left out: Unknown, not reactive, no span.
def place(line, labels):
    words = [labels.take(line, "identifier"), 0, 0]
    if line.peek() and line.peek() != "reactive" and not is_span(line.peek()):
        words[1] = named(line, EFFECT_NAMES, "Effect")
    if line.skip("reactive"):
        words[2] = number(line, "a number for reactive") if is_number(line.peek()) else 1
    words += span(line) if line.peek() and is_span(line.peek()) else NO_SPAN
    line.end("an Effect, reactive, a span START..END, in this order, or the end of the line")
    return words


# The words of a place's line.
# What is left out is what the reader puts in.
def show_place(words, made):
    who, effect, reactive, start, end = words
    shown = [made.show(who, "identifier")] + ([show_named(effect, EFFECT_NAMES)] if effect else [])
    shown += ["reactive"] * bool(reactive) + ([show_number(reactive)] if reactive > 1 else [])
    return shown + ([show_span(start, end)] if (start, end) != NO_SPAN else [])


# function LABEL [known] [tracked] [context RUN] [inside RUN], or `flags N` for the first two.
# The runs are places of the image.
def function(line, labels):
    if line.skip("flags"):
        flags = number(line, "the flags of a function as a number")
    else:
        flags = KNOWN if line.skip("known") else 0
        flags |= TRACKED if line.skip("tracked") else 0
    words = [flags] + run(line, labels, "context") + run(line, labels, "inside")
    line.end("known, tracked, context with its places, inside with its places, in this order, "
             "or the end of the line")
    return words


# The words of a function's line.
# The other direction of `function`.
def show_function(words, made):
    flags = words[0]
    shown = ["known"] * bool(flags & KNOWN) + ["tracked"] * bool(flags & TRACKED)
    if flags > KNOWN | TRACKED:
        shown = ["flags", show_number(flags)]
    return shown + show_run(made, "context", *words[1:3]) + show_run(made, "inside", *words[3:5])
