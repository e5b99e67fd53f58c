"""Texts that are wrong, each with the line and the gist of the error that it must earn."""

# A text that is right; most bad texts are this one with a ninth line.
BASE = b"""next 1
lvalue p

identifier a
identifier b
place p a
place q b
function f
"""

# What the ninth line is, and the gist of the sentence.
NINTH_LINES = [
    # Beginnings of lines.
    (b"plce r a", "'plce' begins no line; expected edition, options"),
    (b"create into p Mutable Other", "'create' begins no line"),
    (b"next 2", "`next` stands on line 1 already; expected it once"),
    # Labels.
    (b"place p b", "the label 'p' stands on line 6 already; expected another label for this place"),
    (b"identifier a", "the label 'a' stands on line 4 already"),
    (b"identifier 7up", "'7up' is no label; expected a letter or _"),
    (b"place", "a word is missing after 'place'; expected a label for this place"),
    (b"place r c", "'c' is unknown; expected the label of a line `identifier`, or a number"),
    (b"Mutate r", "'r' is unknown; expected the label of a line `place`"),
    (b"Mutate a", "'a' is the label of a line `identifier`, not of a line `place`"),
    (b"own g", "'g' is unknown; expected the label of a line `function`"),
    (b"pair c 1", "'c' is unknown; expected the label of a line `identifier`"),
    # Names.
    (b"value 1 Frosen State",
     "'Frosen' is no kind; expected Mutable, Frozen, Primitive, MaybeFrozen, Global or Context, or a number"),
    (b"value 1 Frozen Sate", "'Sate' is no reason; expected KnownReturnSignature, State"),
    (b"value 1 Frozen State State", "the reason State stands twice"),
    (b"Freeze p Jsx", "'Jsx' is no reason"),
    (b"place r a Reed", "'Reed' is no Effect; expected Unknown, Freeze, Read"),
    (b"options transitive", "'transitive' is no option; expected preserve_existing_memoization_guarantees or t"),
    (b"Mutate p Assign", "'Assign' is no mutation reason; expected AssignCurrentProperty, or a number"),
    # Words that are missing, or too many.
    (b"value 1 Frozen", "a word is missing after 'Frozen'; expected the reasons: - for none"),
    (b"value", "a word is missing after 'value'; expected a value number such as 1, or own(IDENTIFIER)"),
    (b"Assign p q", "'q' stands in place of `into`; expected `into` and the place of the destination"),
    (b"Assign p into", "a word is missing after 'into'; expected the label of a line `place`"),
    (b"Create p Frozen State", "'p' stands in place of `into`"),
    (b"Freeze p", "a word is missing after 'p'; expected the reason: KnownReturnSignature"),
    (b"Assign p into q q", "'q' is not understood here; expected the end of the line"),
    (b"pair a 1 2", "'2' is not understood here; expected the end of the line, since each value"),
    (b"identifier c hoisted 1..2 ref", "'ref' is not understood here; expected ref, hoisted with its span"),
    (b"Apply 1 2 3", "a word is missing after '3'; expected 7 numbers, the other words of an Apply"),
    (b"candidate 18 0 0 0 0 0 0 0 0", "'0' is not understood here; expected the end of the line after 8"),
    (b"identifier c name", "a word is missing after 'name'; expected the number of a name"),
    # Numbers.
    (b"value 4294967296 Frozen State", "the number '4294967296' is too large; expected at most 4294967295"),
    (b"value 0x100000000 Frozen State", "the number '0x100000000' is too large"),
    (b"value " + b"9" * 5000 + b" Frozen -", "9...' is too large"),
    (b"pair a own(4294967295)", "512 + 4294967295 is too large"),
    (b"pair a own(c)", "'c' is unknown; expected the label of a line `identifier`"),
    (b"pair a one", "'one' is no number; expected a value number such as 1, or own(IDENTIFIER)"),
    (b"value -1 Frozen State", "'-1' is no number"),
    (b"value 1_0 Frozen State", "'1_0' is no number"),
    (b"own 4294967295", "the function's number is too large; expected at most 4294967294"),
    # Spans and runs.
    (b"place r a Read 10-14", "'10-14' is not understood here; expected an Effect, reactive, a span"),
    (b"place r a 10..", "'10..' is no span; expected START..END with two numbers"),
    (b"identifier c hoisted 1..x", "'1..x' is no span"),
    (b"place r a 1..4294967296", "the number '4294967296' is too large"),
    (b"function g context q to p", "from place 'q', number 1, back to place 'p', number 0; expected the first"),
    (b"function g context 0 to 4294967295", "the run of 4294967296 places is too long"),
    (b"function g context p to", "a word is missing after 'to'; expected the label of a line `place`"),
    (b"CreateFunction into p f captures", "a word is missing after 'captures'; expected the label of a line"),
    (b"function g inside p context q", "'context' is not understood here; expected known, tracked, context"),
    # What is no text.
    (b"next \xff", "byte FF is not UTF-8; expected a text"),
    (b"# \xc3\x28", "byte C3 is not UTF-8"),
    (b"value 1\0", "a control character, code 0, is in this line; expected a text"),
    ("value 1\u00a0Frozen State".encode(), "'1\\xa0Frozen' is no number"),
]

# Whole texts: the line and the gist.
WHOLE_TEXTS = [
    (b"", 1, "the text has no line `next`; expected `next N`, the first fresh number"),
    (b"# nothing\n\n", 2, "the text has no line `next`"),
    (b"next 1\nidentifier a\nplace p a\n", 3, "the text has no line `lvalue`; expected `lvalue PLACE`"),
    (b"next 1\r\nlvalue p\r\n", 2, "'p' is unknown; expected the label of a line `place`"),
    (b"\1\0\0\0\0\0\0\0", 1, "a control character, code 1, is in this line"),
    (b"next 1\n\x89PNG\r\n", 2, "byte 89 is not UTF-8"),
]


# All bad texts as (text, line, gist).
# One form, so that the check is one loop.
def bad_texts():
    return [(BASE + ninth + b"\n", 9, gist) for ninth, gist in NINTH_LINES] + WHOLE_TEXTS
