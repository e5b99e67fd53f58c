"""What an image and a library job share: identifiers, values, sets, places,
functions, and the candidate records by name."""

from names import *


# Words of a candidate record, unused ones zero.
# The order of document 01: code, first, second, kind/reason/diagnostic, reason, function, run.
def record(code, first=0, second=0, kind=0, reason=0, function=0, run=(0, 0)):
    start, count = run
    return [code, first, second, kind, reason, function, start if count else 0, count]


# Freeze of a place with a reason.
# Its place is no destination, so it is the first.
def freeze(place, reason):
    return record(FREEZE, first=place, reason=reason)


# Mutate of a place; its mutation reason is 0 (none) or 1.
# The mutation reason stands in the kind word.
def mutate(place, mutation_reason=0):
    return record(MUTATE, first=place, kind=mutation_reason)


# Codes 2, 3, 4 and 17: one place and nothing else.
# One builder, since their records have the same form.
def one_place(code, place):
    return record(code, first=place)


# Codes 5 to 8, 10, 11: from the first place into the second.
# One builder, since their records have the same form.
def flow(code, source, into):
    return record(code, first=source, second=into)


# Create into a place.
# A destination is the second place; the first stays zero.
def create(into, kind, reason):
    return record(CREATE, second=into, kind=kind, reason=reason)


# CreateFunction into a place, with a run of captured places.
# The function is a plain index.
def create_function(into, function, run=(0, 0)):
    return record(CREATE_FUNCTION, second=into, function=function, run=run)


# Codes 14 to 16: a place and the instance number of a diagnostic.
# Only a library job can hold them, since an image's table is empty.
def diagnosed(code, place, instance):
    return record(code, first=place, kind=instance)


class World:
    """Identifiers, state, places and functions under construction."""

    # Starts with nothing; `next` moves as fresh numbers are taken.
    # Values and sets are kept by number and sorted only when written.
    def __init__(self, options=0, next=1):
        self.options = options
        self.next = next
        self.identifiers = []
        self.values = {}
        self.sets = {}
        self.places = []
        self.functions = []

    # Adds an identifier and returns its number.
    # `access` is the hoisted access span; None means not hoisted.
    def ident(self, ref=False, access=None, name=0):
        flags = (REF if ref else 0) | (HOISTED if access is not None else 0)
        start, end = access if access is not None else (0, 0)
        self.identifiers.append([flags, name, start, end])
        return len(self.identifiers) - 1

    # Adds `count` plain identifiers and returns their numbers.
    # Most small inputs need nothing more.
    def plain(self, count):
        return [self.ident() for _ in range(count)]

    # Takes the next fresh number.
    # Numbers of values and pairs must stay below next.
    def fresh(self):
        self.next += 1
        return self.next - 1

    # Gives a value number its entry.
    # `reasons` is a set of bits.
    def value(self, number, kind, reasons):
        self.values[number] = [kind, reasons]
        return number

    # Lets an identifier point to the given numbers; none is the empty set.
    # An identifier without a call stays undefined.
    def points(self, identifier, numbers):
        self.sets[identifier] = sorted(set(numbers))

    # Defines an identifier with one fresh value of a kind.
    # The commonest shape of a place.
    def holds(self, identifier, kind, reasons=1 << R_OTHER):
        number = self.value(self.fresh(), kind, reasons)
        self.points(identifier, [number])
        return number

    # Adds a place and returns its index.
    # The span is (start, end); NO_SPAN is none.
    def place(self, identifier, effect=E_UNKNOWN, reactive=0, span=NO_SPAN):
        self.places.append([identifier, effect, reactive, span[0], span[1]])
        return len(self.places) - 1

    # Adds a run of places, given as tuples of arguments of `place`.
    # Returns (first, count); an empty run is (0, 0), since its first is unused.
    def run(self, items):
        first = len(self.places)
        for item in items:
            self.place(*item)
        return (first, len(items)) if items else (0, 0)

    # Adds a function from two runs of places.
    # Flags: 1 effects known, 2 tracked side effect.
    def function(self, context=(0, 0), mutated=(0, 0), flags=0):
        self.functions.append([flags, context[0], context[1], mutated[0], mutated[1]])
        return len(self.functions) - 1

    # The five sections that image and job share, each a list of records.
    # Values and pairs come out ascending, as both formats demand.
    def sections(self):
        pairs = []
        for identifier in sorted(self.sets):
            numbers = self.sets[identifier] or [0]
            pairs.extend([identifier, number] for number in numbers)
        values = [[n] + self.values[n] for n in sorted(self.values)]
        return [self.identifiers, values, pairs, self.places, self.functions]
