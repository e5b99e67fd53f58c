"""A library job (docs/VECTORS.md, section 2)."""

from names import *
from words import pack
from world import World


class Job(World):
    """Instructions over any context; `.words()` and `.bytes()` are the file."""

    # A world with a context, a session and instructions.
    # The context starts empty; `keys` guards that interned keys differ.
    def __init__(self, options=0, next=1, flag=0):
        super().__init__(options, next)
        self.flag = flag
        self.access = (0, 0, 0)
        self.walked = 0
        self.diagnostics = []
        self.identities = []
        self.interned = []
        self.keys = set()
        self.cached = []
        self.cached_keys = set()
        self.links = {}
        self.instructions = []

    # Sets the first undefined access that the session holds at the start.
    # The span may be NO_SPAN.
    def undefined(self, identifier, span=NO_SPAN):
        self.access = (1 + identifier, span[0], span[1])

    # Adds a diagnostics record and returns its instance number, or the old one's.
    # The name is the identifier's own, as in every table that the Rust can reach.
    def diagnostic(self, identifier, case, sentence, own=NO_SPAN, access=NO_SPAN):
        name = self.identifiers[identifier][1]
        words = [identifier, case, 0 if case else sentence, name, *access, *own]
        if words in self.diagnostics:
            return self.diagnostics.index(words)
        if tuple(words[:3]) not in self.identities:
            self.identities.append(tuple(words[:3]))
        self.diagnostics.append(words)
        return len(self.diagnostics) - 1

    # The key of an effect, as `effect_key` has it: the fields that identify it.
    # Two interned effects must not share one.
    def key(self, c):
        code, first, second, kind, reason, function, start, count = c
        ident = lambda place: self.places[place][0]
        if code == FREEZE:
            return (code, ident(first), reason)
        if code in MUTATIONS or code in (RENDER, IMPURE):
            return (code, ident(first))
        if code in FLOWS:
            return (code, ident(first), ident(second))
        if code == CREATE:
            return (code, ident(second), kind, reason)
        if code == CREATE_FUNCTION:
            captures = tuple(ident(p) for p in range(start, start + count))
            return (code, ident(second), function, captures)
        identity = self.identities.index(tuple(self.diagnostics[kind][:3]))
        return (code, ident(first), identity)

    # Interns an effect at the start, unless its key is already there.
    # Returns whether it was added.
    def intern(self, candidate):
        key = self.key(candidate)
        if key in self.keys:
            return False
        self.keys.add(key)
        self.interned.append(list(candidate))
        return True

    # Caches a number under a key; both must be new.
    # A number has at most one key, as in every context that the Rust can reach.
    def cache(self, number, code, source=0, into=0, kind=0, reason=0, function=0, run=(0, 0)):
        captures = tuple(self.places[p][0] for p in range(run[0], run[0] + run[1]))
        key = (code, source, into, kind, reason, function, captures)
        if key in self.cached_keys or any(c[8] == number for c in self.cached):
            return False
        self.cached_keys.add(key)
        start = run[0] if run[1] else 0
        self.cached.append([code, source, into, kind, reason, function, start, run[1], number])
        return True

    # Links a value number to a function.
    # The number must be fresh and below next.
    def link(self, number, function):
        self.links[number] = function

    # Adds an instruction: lvalue's place, own function or None, candidates.
    # They run one after the other over one state.
    def instruction(self, lvalue, candidates, own=None):
        self.instructions.append((lvalue, 0 if own is None else own + 1,
                                  [list(c) for c in candidates]))

    # The job as words in the order of docs/VECTORS.md.
    # Links are written ascending by number.
    def words(self):
        parts = self.sections() + [self.diagnostics, self.interned, self.cached,
                                   [[n, self.links[n]] for n in sorted(self.links)]]
        out = [1, self.options, self.flag, self.next, *self.access, self.walked]
        out += [len(part) for part in parts] + [len(self.instructions)]
        for part in parts:
            for words in part:
                out += words
        for lvalue, own, candidates in self.instructions:
            out += [lvalue, own, len(candidates)]
            for words in candidates:
                out += words
        return out

    # The job as bytes.
    # This is what the oracle reads in batch.
    def bytes(self):
        return pack(self.words())
