"""Builds inputs of the three kinds (document 01, docs/VECTORS.md) as bytes."""
import struct

ABSENT = 0xFFFFFFFF
RECORDS = [4, 3, 2, 5, 5, 8]
CAPTURE, ALIAS, MAYBE_ALIAS, ASSIGN, CREATE, CREATE_FROM, IMMUTABLE_CAPTURE = 5, 6, 7, 8, 9, 10, 11
MUTABLE, FROZEN, PRIMITIVE, MAYBE_FROZEN, GLOBAL, CONTEXT = range(6)
STATE, OTHER = 1, 11


def packed(words):
    """Words as little-endian bytes."""
    return struct.pack(f"<{len(words)}I", *words)


def unpacked(data):
    """Bytes as words."""
    return list(struct.unpack(f"<{len(data) // 4}I", data))


def place(identifier, effect=0, reactive=0, span=(ABSENT, ABSENT)):
    """A place record."""
    return [identifier, effect, reactive, *span]


def plain(count):
    """Identifiers without flags and names."""
    return [[0, 0, 0, 0] for _ in range(count)]


def flat(records):
    """The words of a section."""
    return [word for record in records for word in record]


def candidate(code, first=0, second=0, kind=0, reason=0, function=0, run=0, count=0):
    """A candidate record."""
    return [code, first, second, kind, reason, function, run, count]


def image(identifiers, values, pairs, places, functions, candidates, lvalue, own=0, next=1, options=0):
    """A job image of document 01."""
    sections = [identifiers, values, pairs, places, functions, candidates]
    head, offset = [1, options, next, lvalue, own], 17
    for section, size in zip(sections, RECORDS):
        head += [len(section), offset]
        offset += len(section) * size
    return packed(head + [word for section in sections for word in flat(section)])


def job(identifiers, values, pairs, places, functions, instructions, next=1, options=0, flag=0,
        access=(0, 0, 0), walk=0, diagnostics=(), interned=(), cached=(), links=()):
    """A library job; an instruction is (lvalue, own function + 1 or 0, candidates)."""
    sections = [identifiers, values, pairs, places, functions, diagnostics, interned, cached, links]
    words = [1, options, flag, next, *access, walk]
    words += [len(section) for section in sections] + [len(instructions)]
    words += [word for section in sections for word in flat(section)]
    for lvalue, own, candidates in instructions:
        words += [lvalue, own, len(candidates)] + flat(candidates)
    return packed(words)


def operation(number, identifiers, first, second=((), ()), arguments=(), access=(0, 0, 0), flags=(0, 0)):
    """A state operation; a state is (values, pairs), identifiers are their flags."""
    words = [2, number, *access, *flags, len(identifiers), len(first[0]), len(first[1]),
             len(second[0]), len(second[1]), len(arguments)]
    words += list(identifiers) + flat(first[0]) + flat(first[1]) + flat(second[0]) + flat(second[1])
    return packed(words + list(arguments))
