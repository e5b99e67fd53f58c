"""Image bytes into text."""

from image import RECORD_WORDS, SECTION_NAMES
from names import HEADER, MAX_BYTES, MIN_BYTES
from words import unpack

from . import records
from .candidates import show_candidate
from .header import show_header
from .labels import Made
from .problem import Misfit

# Showers of the sections in their order: the first word of a line, the letter of its labels, the rest.
SHOWERS = [("identifier", "i", records.show_identifier), ("value", "", records.show_value),
           ("pair", "", records.show_pair), ("place", "p", records.show_place),
           ("function", "f", records.show_function)]


# The words of an image; a Misfit if the length or the edition is wrong.
# The same bounds as document 01's.
def words_of(data):
    if len(data) > MAX_BYTES:
        raise Misfit("the image has more than %d bytes, and no image may have more" % MAX_BYTES)
    if len(data) < MIN_BYTES:
        raise Misfit("the image has %d bytes, and the header alone has %d" % (len(data), MIN_BYTES))
    if len(data) % 4:
        raise Misfit("the image has %d bytes, which are not whole words of 4 bytes" % len(data))
    words = unpack(data)
    if words[0] != 1:
        raise Misfit("the edition is %d, and only edition 1 is known" % words[0])
    return words


# The six sections as lists of records; a Misfit if one does not begin or end where it should.
# Only what is needed to find the records is tested; their words may be anything.
def sections_of(words):
    sections, at = [], HEADER
    for k, (name, size) in enumerate(zip(SECTION_NAMES, RECORD_WORDS)):
        count, offset = words[5 + 2 * k], words[6 + 2 * k]
        if offset != at:
            raise Misfit("the %s begin at word %d by the header, and should at word %d" % (name, offset, at))
        end = at + count * size
        if end > len(words):
            raise Misfit("the %d %s would end at word %d, and the image ends at word %d" % (
                count, name, end, len(words)))
        sections.append([words[i:i + size] for i in range(at, end, size)])
        at = end
    if at != len(words):
        raise Misfit("the %s end at word %d, and the image ends at word %d" % (
            SECTION_NAMES[-1], at, len(words)))
    return sections


# The text of an image; a Misfit if its sections cannot be found.
# One block of lines for the header and for each section that is not empty.
def disassemble(data):
    words = words_of(data)
    sections = sections_of(words)
    made = Made(len(sections[0]), len(sections[3]), len(sections[4]))
    blocks = [show_header(words[1:5], made)]
    for (first, letter, show), found in zip(SHOWERS, sections):
        labels = [["%s%d" % (letter, n)] if letter else [] for n in range(len(found))]
        blocks.append([[first] + label + show(record, made) for label, record in zip(labels, found)])
    blocks.append([show_candidate(record, made) for record in sections[5]])
    return "\n".join("".join(" ".join(line) + "\n" for line in block) for block in blocks if block)
