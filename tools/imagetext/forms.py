"""Every form of a line, with the words that it stands for by document 01.

The lines of each section are in the form that the disassembler writes. The words are written by hand, so that
a reader and a shower that are wrong in the same way are noticed.
"""

from names import NO

# The header's lines, and its five first words: edition, options, next, lvalue's place, own function + 1.
HEADER_LINES = (["options transitively_freeze_function_expressions", "next 4", "lvalue p2", "own f1"],
                [1, 2, 4, 2, 2])

# Identifiers: flags, name, access start, end.
IDENTIFIERS = [
    ("identifier i0", [0, 0, 0, 0]),
    ("identifier i1 ref hoisted 7..9 name 2", [3, 2, 7, 9]),
    ("identifier i2 hoisted", [2, 0, NO, NO]),
    ("identifier i3 hoisted 0..0 name 512", [2, 512, 0, 0]),
    ("identifier i4 ref name 513", [1, 513, 0, 0]),
    ("identifier i5 flags 0 access 1..0", [0, 0, 1, 0]),
    ("identifier i6 flags 1 access - name 3", [1, 3, NO, NO]),
    ("identifier i7 flags 4", [4, 0, 0, 0]),
    ("identifier i8 flags 6 access 5..0xFFFFFFFF", [6, 0, 5, NO]),
]

# Values: number, kind, reasons.
VALUES = [
    ("value 1 Mutable Other", [1, 0, 2048]),
    ("value 2 Frozen KnownReturnSignature State JsxCaptured", [2, 1, 259]),
    ("value 3 Primitive -", [3, 2, 0]),
    ("value 511 MaybeFrozen Global", [511, 3, 128]),
    ("value own(i0) Global ReducerState", [512, 4, 4]),
    ("value own(i8) Context Context Effect", [520, 5, 24]),
    ("value 521 6 4096", [521, 6, 4096]),
    ("value 0 0xFFFFFFFF 0xFFFFFFFF", [0, NO, NO]),
]

# Pairs: identifier, value.
PAIRS = [
    ("pair i0 empty", [0, 0]),
    ("pair i1 1", [1, 1]),
    ("pair i1 own(i1)", [1, 513]),
    ("pair 9 521", [9, 521]),
]

# Places: identifier, Effect, reactive, start, end.
PLACES = [
    ("place p0 i0", [0, 0, 0, NO, NO]),
    ("place p1 i1 Read 10..14", [1, 2, 0, 10, 14]),
    ("place p2 i2 Capture reactive", [2, 3, 1, NO, NO]),
    ("place p3 i3 reactive 0..0", [3, 0, 1, 0, 0]),
    ("place p4 i4 Store reactive 2 9..4", [4, 7, 2, 9, 4]),
    ("place p5 i8 8 0xFFFFFFFF..7", [8, 8, 0, NO, 7]),
    ("place p6 9 Freeze 7..0xFFFFFFFF", [9, 1, 0, 7, NO]),
]

# Functions: flags, first and count of context places, first and count of places mutated inside.
FUNCTIONS = [
    ("function f0", [0, 0, 0, 0, 0]),
    ("function f1 known context p0 to p2 inside p3", [1, 0, 3, 3, 1]),
    ("function f2 known tracked inside p5 to p6", [3, 0, 0, 5, 2]),
    ("function f3 tracked context p6", [2, 6, 1, 0, 0]),
    ("function f4 flags 4 context p6 count 2", [4, 6, 2, 0, 0]),
    ("function f5 context p1 count 0 inside 7 count 0", [0, 1, 0, 7, 0]),
]

# Candidates: code, first place, second place, kind or mutation reason or diagnostic, reason, function,
# first and count of captures.
CANDIDATES = [
    ("Freeze p1 JsxCaptured", [0, 1, 0, 0, 8, 0, 0, 0]),
    ("Mutate p1", [1, 1, 0, 0, 0, 0, 0, 0]),
    ("Mutate p1 AssignCurrentProperty", [1, 1, 0, 1, 0, 0, 0, 0]),
    ("Mutate p1 2", [1, 1, 0, 2, 0, 0, 0, 0]),
    ("MutateConditionally p1", [2, 1, 0, 0, 0, 0, 0, 0]),
    ("MutateTransitive p2", [3, 2, 0, 0, 0, 0, 0, 0]),
    ("MutateTransitiveConditionally p3", [4, 3, 0, 0, 0, 0, 0, 0]),
    ("Capture p1 into p2", [5, 1, 2, 0, 0, 0, 0, 0]),
    ("Alias p1 into p2", [6, 1, 2, 0, 0, 0, 0, 0]),
    ("MaybeAlias p1 into p2", [7, 1, 2, 0, 0, 0, 0, 0]),
    ("Assign p1 into p2", [8, 1, 2, 0, 0, 0, 0, 0]),
    ("Create into p1 Frozen State", [9, 0, 1, 1, 1, 0, 0, 0]),
    ("Create into p0 6 12", [9, 0, 0, 6, 12, 0, 0, 0]),
    ("CreateFrom p1 into p2", [10, 1, 2, 0, 0, 0, 0, 0]),
    ("ImmutableCapture p1 into p2", [11, 1, 2, 0, 0, 0, 0, 0]),
    ("Apply", [12, 0, 0, 0, 0, 0, 0, 0]),
    ("Apply 1 2 3 4 5 6 0xFFFFFFFF", [12, 1, 2, 3, 4, 5, 6, NO]),
    ("CreateFunction into p1 f2", [13, 0, 1, 0, 0, 2, 0, 0]),
    ("CreateFunction into p1 f2 captures p3", [13, 0, 1, 0, 0, 2, 3, 1]),
    ("CreateFunction into p1 f2 captures p3 to p6", [13, 0, 1, 0, 0, 2, 3, 4]),
    ("CreateFunction into 7 6 captures p3 count 5", [13, 0, 7, 0, 0, 6, 3, 5]),
    ("MutateFrozen p1 0", [14, 1, 0, 0, 0, 0, 0, 0]),
    ("MutateGlobal p1 5", [15, 1, 0, 5, 0, 0, 0, 0]),
    ("Impure p1 0", [16, 1, 0, 0, 0, 0, 0, 0]),
    ("Render p1", [17, 1, 0, 0, 0, 0, 0, 0]),
    ("candidate 18 0 0 0 0 0 0 0", [18, 0, 0, 0, 0, 0, 0, 0]),
    ("candidate 17 1 0 0 0 0 0 17", [17, 1, 0, 0, 0, 0, 0, 17]),
]

SECTIONS = [IDENTIFIERS, VALUES, PAIRS, PLACES, FUNCTIONS, CANDIDATES]

# Other ways to write a line, each beside the form above.
OTHER_WAYS = [
    ("options 2", "options transitively_freeze_function_expressions"),
    ("\ufeffoptions 2\r", "options transitively_freeze_function_expressions"),
    ("next 0x4 # a comment", "next 4"),
    ("lvalue 2", "lvalue p2"),
    ("own 1", "own f1"),
    ("own 1\nedition 1", "own f1"),
    ("identifier i2 hoisted -", "identifier i2 hoisted"),
    ("identifier i1 flags 3 access 7..9 name 2", "identifier i1 ref hoisted 7..9 name 2"),
    ("\tvalue\t01  Mutable 0x800 ", "value 1 Mutable Other"),
    ("value 1 0 Other", "value 1 Mutable Other"),
    ("value 2 Frozen State JsxCaptured KnownReturnSignature",
     "value 2 Frozen KnownReturnSignature State JsxCaptured"),
    ("value 512 Global ReducerState", "value own(i0) Global ReducerState"),
    ("value own(8) Context Context Effect", "value own(i8) Context Context Effect"),
    ("pair 0 0", "pair i0 empty"),
    ("place p0 i0 Unknown reactive 0 -", "place p0 i0"),
    ("place p0 0 0 4294967295..0XFFFFFFFF", "place p0 i0"),
    ("place p2 i2 3 reactive 1 -", "place p2 i2 Capture reactive"),
    ("function f1 flags 1 context 0 to p2 inside p3 to p3", "function f1 known context p0 to p2 inside p3"),
    ("function f1 known context p0 count 3 inside 3", "function f1 known context p0 to p2 inside p3"),
    ("function f0 flags 0 context 0 count 0 inside p0 count 0", "function f0"),
    ("Freeze 1 8", "Freeze p1 JsxCaptured"),
    ("Mutate p1 1", "Mutate p1 AssignCurrentProperty"),
    ("Mutate p1 0", "Mutate p1"),
    ("Create into p1 1 State", "Create into p1 Frozen State"),
    ("Apply 0 0 0 0 0 0 0", "Apply"),
    ("candidate 0 1 0 0 8 0 0 0", "Freeze p1 JsxCaptured"),
]


# The text with every form, in blocks as the disassembler writes them.
# Each block is the header or a section.
def text():
    blocks = [HEADER_LINES[0]] + [[line for line, _ in section] for section in SECTIONS]
    return "\n".join("".join(line + "\n" for line in block) for block in blocks)


# The words of the image of this text, counted and put together here.
# The header has 17 words, and the offsets follow from the lengths.
def words():
    head, body = list(HEADER_LINES[1]), []
    for section in SECTIONS:
        head += [len(section), 17 + len(body)]
        body += [word for _, record in section for word in record]
    return head + body
