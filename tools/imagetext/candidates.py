"""The lines of candidates, read and shown: the effect's name, then the words that it uses, in their order."""

from model import USED
from names import APPLY, CODE_NAMES, CREATE, KIND_NAMES, MUTATE, REASON_NAMES

from .atoms import named, number, show_named, show_number
from .runs import run, show_run

# `MutationReason` of the Rust; none is 0, so its names begin at 1.
MUTATION_REASONS = ["AssignCurrentProperty"]


# Takes `count` numbers, which end the line.
# For what the names cannot say.
def numbers(line, count, what):
    found = [number(line, "%d numbers, %s" % (count, what)) for _ in range(count)]
    line.end("the end of the line after %d numbers" % count)
    return found


# candidate W0 .. W7: the eight words as they stand.
# So any candidate can be written, also one that is refused.
def raw(line):
    return numbers(line, 8, "the words of a candidate")


# Word 3, by the code: a kind, a mutation reason that may be left out, or a diagnostic.
# The three share a word of the record.
def word_three(line, code):
    if code == CREATE:
        return named(line, KIND_NAMES, "kind")
    if code == MUTATE:
        return named(line, MUTATION_REASONS, "mutation reason", 1) if line.peek() else 0
    return number(line, "the number of a diagnostic")


# EFFECT [PLACE] [into PLACE] [KIND, mutation reason or diagnostic] [REASON] [FUNCTION] [captures RUN].
# Each code has the parts that it uses and no other; Apply has seven numbers or nothing.
def candidate(line, labels, code):
    if code == APPLY:
        return [code] + (numbers(line, 7, "the other words of an Apply") if line.peek() else [0] * 7)
    words = [code] + [0] * 7
    used = USED[code]
    if 1 in used:
        words[1] = labels.take(line, "place")
    if 2 in used:
        line.expect("into", "the place of the destination")
        words[2] = labels.take(line, "place")
    if 3 in used:
        words[3] = word_three(line, code)
    if 4 in used:
        words[4] = named(line, REASON_NAMES, "reason")
    if 5 in used:
        words[5] = labels.take(line, "function")
    if 7 in used:
        words[6:8] = run(line, labels, "captures")
    line.end("the end of the line" + (", or captures with its places" if 7 in used else ""))
    return words


# Word 3 as words of the line.
# The other direction of `word_three`.
def show_three(code, word):
    if code == CREATE:
        return [show_named(word, KIND_NAMES)]
    if code == MUTATE:
        return [show_named(word, MUTATION_REASONS, 1)] if word else []
    return [show_number(word)]


# The words of a candidate's line.
# An unknown code, or an unused word that is not zero, shows all eight words as numbers.
def show_candidate(words, made):
    code = words[0]
    if code == APPLY:
        return ["Apply"] + ([show_number(word) for word in words[1:]] if any(words[1:]) else [])
    used = USED.get(code, ())
    if not used or any(word for n, word in enumerate(words) if n and n not in used):
        return ["candidate"] + [show_number(word) for word in words]
    shown = [CODE_NAMES[code]]
    shown += [made.show(words[1], "place")] if 1 in used else []
    shown += ["into", made.show(words[2], "place")] if 2 in used else []
    shown += show_three(code, words[3]) if 3 in used else []
    shown += [show_named(words[4], REASON_NAMES)] if 4 in used else []
    shown += [made.show(words[5], "function")] if 5 in used else []
    return shown + (show_run(made, "captures", *words[6:8]) if 7 in used else [])
