"""A state operation (docs/VECTORS.md, section 3)."""

from words import pack
from world import World


class Op(World):
    """One operation on one or two states; the world itself is the first state."""

    # `op` is the operation's number, `flags` the two function-expression flags.
    # The second state has its own values and sets.
    def __init__(self, op, flags=(0, 0)):
        super().__init__()
        self.op = op
        self.flags = flags
        self.access = (0, 0, 0)
        self.other = World()
        self.args = []

    # Sets the first undefined access that stands before the operation.
    # As in a job: 1 + identifier and the span.
    def undefined(self, identifier, start, end):
        self.access = (1 + identifier, start, end)

    # The operation as words.
    # Of an identifier only its ref flag is written.
    def words(self):
        _, values, pairs, _, _ = self.sections()
        _, values2, pairs2, _, _ = self.other.sections()
        out = [2, self.op, *self.access, *self.flags, len(self.identifiers),
               len(values), len(pairs), len(values2), len(pairs2), len(self.args)]
        out += [i[0] & 1 for i in self.identifiers]
        for part in (values, pairs, values2, pairs2):
            for words in part:
                out += words
        return out + list(self.args)

    # The operation as bytes.
    # This is what the oracle reads in batch.
    def bytes(self):
        return pack(self.words())
