"""More cases, worked out by hand from the text of the Rust."""
from forms import (ABSENT, ALIAS, ASSIGN, CAPTURE, CONTEXT, CREATE, CREATE_FROM, FROZEN, GLOBAL,
                   IMMUTABLE_CAPTURE, MAYBE_ALIAS, MAYBE_FROZEN, MUTABLE, OTHER, PRIMITIVE, STATE,
                   candidate, image, job, operation, place, plain, unpacked)

READ, CAPTURED = 2, 3
NONE = (ABSENT, ABSENT)


class Answer:
    """The answer words of a job, read back part by part."""

    def __init__(self, words, instructions):
        self.words, self.at = words, 0
        self.results = [self.instruction() for _ in range(instructions)]
        self.flag, self.next = self.take(2)
        self.access, self.walk = tuple(self.take(3)), self.take(1)[0]
        self.values = [tuple(self.take(3)) for _ in range(self.count())]
        self.pairs = {self.count(): self.take(self.count()) for _ in range(self.count())}
        self.contexts = [self.take(self.count()) for _ in range(self.count())]
        self.links = [tuple(self.take(2)) for _ in range(self.count())]
        self.cached = [(*self.take(7), self.take(self.count())) for _ in range(self.count())]
        self.interned = [self.effect() for _ in range(self.count())]
        self.diagnostics = [tuple(self.take(9)) for _ in range(self.count())]
        assert self.at == len(words), "words are left over"

    def take(self, count):
        """The next words."""
        self.at += count
        return self.words[self.at - count:self.at]

    def count(self):
        """The next word."""
        return self.take(1)[0]

    def effect(self):
        """One effect: code, two places, numbers, captures."""
        code, first, second = self.count(), self.take(5), self.take(5)
        return code, first, second, self.take(6), [self.take(5) for _ in range(self.count())]

    def instruction(self):
        """Result, walk entries, effects."""
        result, count, walk = self.take(3)
        return result, walk, [self.effect() for _ in range(count)]


def run(check, listing, oracle, _results):
    """Runs all of them."""
    def answer(instructions, **parts):
        data = job(instructions=instructions, **parts)
        return Answer(unpacked(oracle(data, "--job", "--words")), len(instructions))

    for case in [shared_diagnostics, early_mutate, context_becomes_read, create_from_frozen,
                 assign_kinds, undefined_assign, cached_hit, full_interning, full_diagnostics,
                 two_limits, refused_between, table_diagnostics, label_roles, self_effects, hoisted_labels, context_kinds,
                 walk_options]:
        case(check, answer, listing)
    operations(check, lambda data: unpacked(oracle(data, "--op", "--words")))


def shared_diagnostics(check, answer, _):
    """Decision 1: numbers 0, 0, 1; the third effect has the first one's place."""
    got = answer([(2, 0, [candidate(1, 0), candidate(1, 1), candidate(3, 1)])],
                 identifiers=[[0, 7, 0, 0], [0, 0, 0, 0]], values=[[1, FROZEN, 1 << STATE]],
                 pairs=[[0, 1]], places=[place(0, span=(1, 2)), place(0, span=(9, 4)), place(1)],
                 functions=[], next=2)
    effects = got.results[0][2]
    check("shared numbers", [(e[0], e[3][4], e[3][5]) for e in effects],
          [(14, 0, 0), (14, 0, 0), (14, 0, 1)])
    check("shared places", [e[1][3:] for e in effects], [[1, 2]] * 3)
    check("shared table", got.diagnostics, [(0, 0, 0, 5, 7, *NONE, 1, 2), (0, 0, 0, 5, 7, *NONE, 9, 4)])
    check("shared keys", [e[0] for e in got.interned], [1, 3, 14])


def early_mutate(check, answer, _):
    """Own function: once per mutated place, only Frozen, defined and in the context; never case 1."""
    got = answer([(2, 1, [])], identifiers=[[2, 0, 5, 6], [0, 0, 0, 0], [0, 0, 0, 0]],
                 values=[[1, FROZEN, 0], [2, MAYBE_FROZEN, 0]], pairs=[[0, 1], [1, 2]],
                 places=[place(0), place(1), place(2)], functions=[[1, 0, 3, 0, 3]], next=3)
    check("early list", [(e[0], e[1][0], e[3][5]) for e in got.results[0][2]], [(14, 0, 0)])
    check("early table", got.diagnostics, [(0, 0, 0, 10, 0, *NONE, *NONE)])
    check("early interns nothing", (got.interned, got.access), ([], (0, 0, 0)))


def context_becomes_read(check, answer, _):
    """CreateFunction: frozen Capture places become Read, all of that identifier; the value is Frozen {}."""
    places = [place(0, CAPTURED), place(0, CAPTURED), place(1, CAPTURED), place(0, 6), place(2)]
    got = answer([(4, 0, [candidate(13, second=4, function=0, run=0, count=1)])], identifiers=plain(3),
                 values=[[1, FROZEN, 4]], pairs=[[0, 1]], places=places,
                 functions=[[0, 0, 4, 0, 0]], next=2)
    check("Read", got.contexts, [[READ, READ, CAPTURED, 6]])
    check("function value", (got.values, got.links), ([(1, FROZEN, 4), (2, FROZEN, 0)], [(2, 0)]))
    check("function effects", [e[0] for e in got.results[0][2]], [13, IMMUTABLE_CAPTURE])
    check("function cached", got.cached, [(2, 13, 0, 2, 0, 0, 0, [0])])


def create_from_frozen(check, answer, _):
    """CreateFrom of Frozen: an uninterned Create with the first reason, then ImmutableCapture."""
    got = answer([(1, 0, [candidate(CREATE_FROM, 0, 1)])], identifiers=plain(2),
                 values=[[1, FROZEN, (1 << OTHER) | 8]], pairs=[[0, 1]], places=[place(0), place(1)],
                 functions=[], next=2)
    check("CreateFrom list", [(e[0], e[3][:2]) for e in got.results[0][2]], [(9, [1, 3]), (11, [0, 0])])
    check("CreateFrom keys", [e[0] for e in got.interned], [CREATE_FROM, IMMUTABLE_CAPTURE])
    check("CreateFrom value", got.values[1], (2, FROZEN, (1 << OTHER) | 8))


def assign_kinds(check, answer, _):
    """Assign: Frozen lists ImmutableCapture and takes a number, Global takes one silently, Context shares."""
    for kind, listed, pairs, key in [(FROZEN, [11], {0: [1], 1: [2]}, 18), (GLOBAL, [], {0: [1], 1: [2]}, 19),
                                     (CONTEXT, [ASSIGN], {0: [1], 1: [1]}, None)]:
        got = answer([(1, 0, [candidate(ASSIGN, 0, 1)])], identifiers=plain(2), values=[[1, kind, 5]],
                     pairs=[[0, 1]], places=[place(0), place(1)], functions=[], next=2)
        check(f"Assign {kind}", ([e[0] for e in got.results[0][2]], got.pairs), (listed, pairs))
        check(f"Assign key {kind}", [c[1] for c in got.cached], [key] if key else [])


def undefined_assign(check, answer, _):
    """An undefined source acts as Mutable, keeps the entry at 512 + i, stays undefined, records its span."""
    got = answer([(1, 0, [candidate(ASSIGN, 0, 1)])], identifiers=plain(2), values=[[512, FROZEN, 1]],
                 pairs=[], places=[place(0, span=(0, 0)), place(1)], functions=[])
    check("undefined Assign", (got.values, got.pairs, got.access), ([(512, FROZEN, 1)], {1: [512]}, (1, 0, 0)))


def cached_hit(check, answer, _):
    """A cached number is used again and no fresh one is taken."""
    got = answer([(0, 0, [candidate(CREATE, 0, 0, PRIMITIVE, STATE)])], identifiers=plain(1), values=[],
                 pairs=[], places=[place(0)], functions=[], next=512,
                 cached=[[CREATE, 0, 0, PRIMITIVE, STATE, 0, 0, 0, 5]])
    check("cached hit", (got.results[0][0], got.next, got.pairs), (0, 512, {0: [5]}))


def keys(count):
    """That many interned MaybeAlias effects over 46 places."""
    return [candidate(MAYBE_ALIAS, n // 46, n % 46) for n in range(count)]


def full_interning(check, answer, _):
    """The 2,049th key is 8, before 6 and 7 and 9; a key that is there already passes."""
    base = dict(identifiers=plain(46), values=[], pairs=[], functions=[], places=[place(i) for i in range(46)])
    create = lambda reason: candidate(CREATE, 0, 0, MUTABLE, reason)
    for name, count, list_, wanted in [("new", 2048, [candidate(CAPTURE, 0, 0)], 8),
                                       ("old", 2048, [candidate(MAYBE_ALIAS, 0, 0)], 0),
                                       ("8 before 6", 2047, [create(0), create(1)], 8),
                                       ("6", 2047, [create(0), create(0)], 6),
                                       ("8 before 7", 2048, [candidate(ALIAS, 0, 0)], 8),
                                       ("7", 2047, [candidate(ALIAS, 0, 0)], 7)]:
        got = answer([(0, 0, list_)], interned=keys(count), **base)
        check(f"keys {name}", (got.results[0][0], len(got.interned)), (wanted, count))
    got = answer([(0, 0, [create(0)])], interned=keys(2048), next=512, **base)
    check("8 before 9", got.results[0][0], 8)


def full_diagnostics(check, answer, _):
    """The 257th instance is 10; one that is there already passes. The early test counts too."""
    table = [[0, 0, 5, 0, *NONE, n, n + 1] for n in range(256)]
    base = dict(identifiers=plain(2), values=[[1, FROZEN, 1 << STATE]], pairs=[[0, 1]], diagnostics=table,
                functions=[[1, 0, 1, 0, 1]], next=2)
    for span, own, wanted in [((255, 256), 0, 0), ((256, 257), 0, 10), ((256, 257), 1, 10), ((7, 8), 1, 0)]:
        got = answer([(1, own, [] if own else [candidate(1, 0)])], places=[place(0, span=span), place(1)], **base)
        check(f"instances {span} {own}", (got.results[0][0], len(got.diagnostics)), (wanted, 256))


def two_limits(check, answer, _):
    """Two limits in one candidate: Assign from Frozen 8, CreateFrom and CreateFunction 9, Mutate 10."""
    base = dict(identifiers=plain(46), values=[[1, FROZEN, 1 << STATE]], pairs=[[0, 1]],
                places=[place(i) for i in range(46)] + [place(0, span=(5, 6))], functions=[[0, 0, 0, 0, 0]])
    function = candidate(13, second=1, function=0, run=0, count=1)
    for name, one, wanted in [("Assign", candidate(ASSIGN, 0, 1), 8), ("CreateFrom", candidate(CREATE_FROM, 0, 1), 9),
                              ("CreateFunction", function, 9)]:
        got = answer([(0, 0, [one])], interned=keys(2047), next=512, **base)
        check(f"two limits, {name}", got.results[0][0], wanted)
    table = [[0, 0, 5, 0, *NONE, n, n] for n in range(256)]
    got = answer([(0, 0, [candidate(1, 46)])], interned=keys(2047), diagnostics=table, next=2, **base)
    check("two limits, Mutate", got.results[0][0], 10)


def refused_between(check, answer, _):
    """A refused instruction leaves numbers, keys, entries and access as they were."""
    create = lambda into: candidate(CREATE, 0, into, MUTABLE, OTHER)
    first = (0, 0, [create(0), candidate(0, 0, reason=STATE)])
    second = (1, 0, [create(1), candidate(CAPTURE, 2, 1), candidate(CREATE, 0, 1)])
    third = (1, 0, [create(1)])
    got = answer([first, second, third], identifiers=plain(3), values=[], pairs=[], functions=[],
                 places=[place(0), place(1), place(2)], options=1, walk=99)
    check("refused between", [r[:2] for r in got.results], [(0, 1), (6, 0), (0, 0)])
    check("as before", (got.next, got.access, len(got.interned), got.walk), (3, (0, 0, 0), 3, 0))
    got = answer([first, second], identifiers=plain(3), values=[], pairs=[], functions=[],
                 places=[place(0), place(1), place(2)], options=2, walk=99)
    check("entries stay", got.walk, 1)


def table_diagnostics(check, answer, _):
    """Listed codes 14 to 16 pass through; Impure's key leaves the diagnostic out."""
    table = [[1, 1, 0, 3, 1, 2, 3, 4], [1, 1, 0, 3, *NONE, 3, 4], [0, 0, 2, 0, *NONE, *NONE]]
    got = answer([(0, 0, [candidate(16, 0, kind=0), candidate(16, 1, kind=2), candidate(15, 1, kind=1)])],
                 identifiers=[[0, 0, 0, 0], [0, 3, 0, 0]], values=[], pairs=[], functions=[],
                 places=[place(0, span=(1, 1)), place(0, span=(2, 2))], diagnostics=table)
    check("Impure", [(e[0], e[1][3], e[3][4:]) for e in got.results[0][2]],
          [(16, 1, [0, 0]), (16, 1, [1, 2]), (15, 2, [0, 1])])
    check("table back", got.diagnostics, [(0, *table[0]), (0, *table[1]), (1, *table[2])])


def label_roles(check, answer, _):
    """One span as access label and as own label: two instances of one identity; other identifiers don't share."""
    table = [[0, 1, 0, 12, 1, 2, *NONE], [0, 1, 0, 12, *NONE, 1, 2], [1, 1, 0, 12, 1, 2, *NONE],
             [0, 1, 0, 1, 1, 2, *NONE]]
    got = answer([(0, 0, [])], identifiers=plain(2), values=[], pairs=[], functions=[], places=[place(0)],
                 diagnostics=table)
    check("label roles", got.diagnostics, [(n, *d) for n, d in zip([0, 0, 1, 2], table)])


def self_effects(check, answer, listing):
    """An undefined place assigned to itself becomes defined; a function that captures its own destination
    sees it undefined for its kind, and defined for the derived Capture."""
    one = lambda list_, functions: image(plain(1), [], [], [place(0)], functions, list_, 0)
    check("Assign to itself", listing(one([candidate(ASSIGN, 0, 0)], [])),
          "OK 1 0\nE 8 0 0 - - -\nV 512 0 2048\nP 0 512\nU 0\n")
    check("function captures itself", listing(one([candidate(13, second=0, count=1)], [[0, 0, 0, 0, 0]])),
          "OK 2 0\nE 13 - 0 - - 0\nE 11 0 0 - - -\nV 1 1 0\nP 0 1\nU -\n")


def hoisted_labels(check, answer, _):
    """Case 1: the access label is left out where its span equals the place's; hoisted Global is case 0."""
    for access, span, kind, wanted in [((1, 2), (1, 2), FROZEN, (1, 0, *NONE, 1, 2)),
                                       ((1, 2), (9, 3), MAYBE_FROZEN, (1, 0, 1, 2, 9, 3)),
                                       (NONE, (1, 2), FROZEN, (1, 0, *NONE, 1, 2)),
                                       ((0, 0), NONE, FROZEN, (1, 0, 0, 0, *NONE)),
                                       ((1, 2), (1, 2), GLOBAL, (0, 0, *NONE, 1, 2))]:
        got = answer([(1, 0, [candidate(3, 0)])], identifiers=[[2, 4, *access], [0, 0, 0, 0]],
                     values=[[1, kind, 1 << 7]], pairs=[[0, 1]], places=[place(0, span=span), place(1)],
                     functions=[], next=2)
        check(f"hoisted {access} {span}", got.diagnostics, [(0, 0, *wanted[:2], 4, *wanted[2:])])
        check(f"hoisted code {kind}", got.results[0][2][0][0], 15 if kind == GLOBAL else 14)


def context_kinds(check, answer, _):
    """Capture by kinds: Context source goes through MaybeAlias, MaybeFrozen source through ImmutableCapture."""
    table = {(MUTABLE, MUTABLE): 5, (MUTABLE, CONTEXT): 7, (CONTEXT, MUTABLE): 7, (CONTEXT, MAYBE_FROZEN): 7,
             (MUTABLE, FROZEN): None, (CONTEXT, GLOBAL): None, (FROZEN, PRIMITIVE): 11, (MAYBE_FROZEN, MUTABLE): 11,
             (GLOBAL, MUTABLE): None, (MUTABLE, MAYBE_FROZEN): 5}
    for (source, target), code in table.items():
        got = answer([(1, 0, [candidate(CAPTURE, 0, 1)])], identifiers=plain(2),
                     values=[[1, source, 0], [2, target, 0]], pairs=[[0, 1], [1, 2]],
                     places=[place(0), place(1)], functions=[], next=3)
        check(f"Capture {source} into {target}", [e[0] for e in got.results[0][2]], [code] if code is not None else [])


def walk_options(check, answer, _):
    """No option: the place freezes, nothing is entered. One option: values without an entry are frozen too."""
    for options, walk, values in [(0, 0, [(1, FROZEN, 2), (2, MUTABLE, 0)]),
                                  (2, 3, [(1, FROZEN, 2), (2, FROZEN, 2), (3, FROZEN, 2)])]:
        got = answer([(0, 0, [candidate(0, 0, reason=STATE)])], identifiers=plain(2),
                     values=[[1, MUTABLE, 0], [2, MUTABLE, 0]], pairs=[[0, 1], [1, 2], [1, 3]],
                     places=[place(0), place(1)], functions=[[0, 1, 1, 0, 0]], options=options, next=4,
                     links=[[1, 0]])
        check(f"walk, options {options}", (got.results[0][1], got.values), (walk, values))


def operations(check, ask):
    """State operations: the answers, the access and the state after them."""
    state = ([[1, MUTABLE, 1], [2, FROZEN, 2]], [[0, 1], [0, 2], [1, 0]])
    tail = [0, 2, 1, 0, 1, 2, 1, 2, 2, 0, 2, 1, 2, 1, 0]
    check("op kind", ask(operation(1, [0, 0], state, arguments=[0])), [2, MAYBE_FROZEN, 3, 0, 0, 0] + tail)
    check("op kind, empty set", ask(operation(1, [0, 0], state, arguments=[1])), [2, 0, 2048, 0, 0, 0] + tail)
    check("op kind, undefined", ask(operation(2, [0, 0, 0], state, arguments=[2, 5, 4])),
          [2, 0, 2048, 3, 5, 4] + tail)
    check("op kind, first access stays", ask(operation(1, [0, 0, 0], state, arguments=[2], access=(1, *NONE))),
          [2, 0, 2048, 1, *NONE] + tail)
    check("op values_for", ask(operation(8, [0, 0], state, arguments=[0])), [2, 1, 2, 0, 0, 0] + tail)
    check("op freeze", ask(operation(9, [0, 0], state, arguments=[0, 4])),
          [1, 1, 0, 0, 0, 0, 2, 1, 1, 16, 2, 1, 16, 2, 0, 2, 1, 2, 1, 0])
    check("op mutate of a ref", ask(operation(10, [1, 0], state, arguments=[0, 0, 1, 2])), [1, 4, 0, 0, 0] + tail)
    check("op mutate", ask(operation(10, [0, 0], state, arguments=[2, 0, 1, 2])), [1, 2, 0, 0, 0] + tail)
    check("op phi of undefined", ask(operation(11, [0] * 4, state, arguments=[1, 2, 3])), [0, 0, 0, 0] + tail)
    check("op merge_from clears", ask(operation(13, [0, 0], state, state, access=(1, 2, 3))), [0, 0, 0, 0] + tail)
    other = ([[2, MUTABLE, 0]], [[2, 0]])
    check("op merge", ask(operation(12, [0] * 3, state, other, access=(1, 2, 3), flags=(1, 0))),
          [1, 1, 1, 2, 3, 1, 2, 1, 0, 1, 2, 3, 2, 3, 0, 2, 1, 2, 1, 0, 2, 0])
