"""A job image of document 01."""

from names import HEADER
from words import pack
from world import World

RECORD_WORDS = [4, 3, 2, 5, 5, 8]
SECTION_NAMES = ["identifiers", "values", "pairs", "places", "functions", "candidates"]


class Image(World):
    """One instruction with its state; `.words()` and `.bytes()` are the image."""

    # A world with a list of candidates, an lvalue and maybe an own function.
    # `own` is the function's index or None; `lvalue` is a place index.
    def __init__(self, options=0, next=1):
        super().__init__(options, next)
        self.candidates = []
        self.lvalue = 0
        self.own = None

    # Adds candidates in order.
    # Short name, since every profile uses it.
    def add(self, *candidates):
        self.candidates.extend(list(c) for c in candidates)

    # All six sections in the order of document 01.
    # The damage tools need the records as well as the words.
    def records(self):
        return self.sections() + [self.candidates]

    # The image as words, with computed counts and offsets.
    # Sections follow in order without gaps from word 17.
    def words(self):
        own = 0 if self.own is None else self.own + 1
        head = [1, self.options, self.next, self.lvalue, own]
        body = []
        for records in self.records():
            head += [len(records), HEADER + len(body)]
            for words in records:
                body += words
        return head + body

    # The image as bytes.
    # This is what the program `infer` reads.
    def bytes(self):
        return pack(self.words())
