"""An image as header and six lists of records, and the way back to bytes.

What the mutations and the shrinking share. Counts and offsets are computed anew, so an edit of the
records never breaks the layout by itself.
"""

import os
import sys

sys.path.insert(0, os.path.join(os.path.dirname(os.path.abspath(__file__)), "..", "gen"))

import parse
from damage import CANDIDATES, FUNCTIONS, IDENTIFIERS, PAIRS, PLACES, VALUES
from image import RECORD_WORDS, Image
from names import HEADER
from words import pack, unpack


# Header and sections of the bytes of an image, or None where the layout is not right.
# Words out of range don't matter here, only counts, offsets and length.
def take_apart(data):
    if len(data) % 4:
        return None
    try:
        return parse.image(unpack(data))
    except ValueError:
        return None


# The bytes of header and sections, with the counts and offsets that the sections ask for.
# The first five header words stay as they are.
def put_together(head, sections):
    image = Image(head[1], head[2])
    image.lvalue, image.own, image.records = head[3], head[4] - 1, lambda: sections
    return pack(head[:1] + image.words()[1:])
