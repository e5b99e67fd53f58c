"""Cases of document 01 whose answers are known beforehand, run through the oracle.

Usage: run.py ORACLE
"""
import struct
import subprocess
import sys

import extra
from forms import (ABSENT, ALIAS, ASSIGN, CAPTURE, CREATE, FROZEN, MAYBE_ALIAS, MAYBE_FROZEN,
                   MUTABLE, OTHER, PRIMITIVE, STATE, candidate, image, job, operation, place, plain,
                   unpacked)

ORACLE = sys.argv[1]
CASE_1 = "OK 2 0\nE 9 - 0 1 1 -\nE 11 0 1 - - -\nV 1 1 2\nV 2 1 2\nP 0 1\nP 1 2\nU -\n"
passed = failed = 0


def oracle(data, *flags):
    """The oracle's output bytes."""
    return subprocess.run([ORACLE, *flags], input=data, capture_output=True, check=True).stdout


def check(name, got, wanted):
    """Compares and counts; a difference is printed whole."""
    global passed, failed
    if got == wanted:
        passed += 1
    else:
        failed += 1
        print(f"FAILED {name}\n  got    {got!r}\n  wanted {wanted!r}")


def listing(data):
    """The listing of an image."""
    return oracle(data, "--image").decode()


def results(data, count):
    """The results and walk entries of the instructions of a job without effects."""
    words, found, at = unpacked(oracle(data, "--job", "--words")), [], 0
    for _ in range(count):
        result, effects, walk = words[at:at + 3]
        found.append((result, walk))
        at += 3
        for _ in range(effects):
            at += 18 + 5 * words[at + 17]
    return found


def two(candidates, **more):
    """An image over two plain identifiers with lvalue 1."""
    return image(plain(2), more.pop("values", []), more.pop("pairs", []), [place(0), place(1)], [],
                 candidates, 1, **more)


def case_1():
    """The whole listing of document 01."""
    create = candidate(CREATE, 0, 0, FROZEN, STATE)
    check("case 1", listing(two([create, candidate(ASSIGN, 0, 1)])), CASE_1)


def case_10():
    """Mutate of MaybeFrozen: MutateGlobal; hoisted: MutateFrozen; a ref: nothing."""
    for flags, access, wanted in [(0, (0, 0), ["E 15 0 - - - 0"]), (2, (5, 6), ["E 14 0 - - - 0"]),
                                  (1, (0, 0), [])]:
        data = image([[flags, 0, *access], [0, 0, 0, 0]], [[1, MAYBE_FROZEN, 1 << OTHER]], [[0, 1]],
                     [place(0), place(1)], [], [candidate(1, 0)], 1, next=2)
        lines = [line for line in listing(data).splitlines() if line.startswith("E")]
        check(f"case 10, flags {flags}", lines, wanted)


def case_11():
    """Create twice into one place."""
    create = candidate(CREATE, 0, 0, FROZEN, STATE)
    check("case 11", listing(two([create, create])), "REFUSED 6\n")


def case_12():
    """Alias into an uninitialized place is refused, Capture isn't."""
    check("case 12 Alias", listing(two([candidate(ALIAS, 0, 1)])), "REFUSED 7\n")
    check("case 12 Capture", listing(two([candidate(CAPTURE, 0, 1)])),
          "OK 1 0\nE 5 0 1 - - -\nV 513 0 2048\nP 1 513\nU 1\n")


def case_13():
    """From a Primitive, MaybeAlias is emitted and Capture isn't."""
    state = {"values": [[1, PRIMITIVE, 0], [2, MUTABLE, 0]], "pairs": [[0, 1], [1, 2]], "next": 3}
    for code, count in [(MAYBE_ALIAS, 1), (CAPTURE, 0)]:
        first = listing(two([candidate(code, 0, 1)], **{k: v for k, v in state.items()})).splitlines()[0]
        check(f"case 13, code {code}", first, f"OK {count} 0")


def case_14():
    """A state merged with itself: None, an empty third state."""
    state = ([[1, MUTABLE, 1], [513, FROZEN, 2]], [[0, 1], [0, 513], [1, 0]])
    got = unpacked(oracle(operation(12, [0, 0], state, state, flags=(1, 1)), "--op", "--words"))
    check("case 14", got, [1, 0, 0, 0, 0, 0, 0, 0])


def case_15():
    """An empty list: only the lvalue step."""
    check("case 15", listing(two([])), "OK 0 0\nV 513 0 2048\nP 1 513\nU -\n")


def case_16():
    """64 candidates pass."""
    text = listing(two([candidate(CAPTURE, 0, 1)] * 64))
    check("case 16", text.splitlines()[0], "OK 64 0")


def case_17():
    """Next 511 serves one Create; then 9. The refused one leaves everything."""
    create = lambda into: candidate(CREATE, 0, into, MUTABLE, OTHER)
    check("case 17 one", listing(two([create(0)], next=511)).splitlines()[-3:],
          ["P 0 511", "P 1 513", "U -"])
    check("case 17 two", listing(two([create(0), create(1)], next=511)), "REFUSED 9\n")
    data = job(plain(2), [], [], [place(0), place(1)], [], [(1, 0, [create(0)]), (1, 0, [create(1)])],
               next=511)
    check("case 17 job", results(data, 2), [(0, 0), (9, 0)])


def case_18():
    """p = {f}, f with context x = {f, g}; f below g never ends, f above g: 3 entries."""
    for f, g, wanted in [(1, 2, (11, 0)), (2, 1, (0, 3))]:
        data = job(plain(2), [[1, MUTABLE, 0], [2, MUTABLE, 0]], [[0, f], [1, 1], [1, 2]],
                   [place(0), place(1)], [[0, 1, 1, 0, 0]], [(0, 0, [candidate(0, 0, reason=OTHER)])],
                   next=3, options=1, links=[[f, 0]])
        check(f"case 18, f {f} g {g}", results(data, 1), [wanted])


def batch():
    """A bad input, an endless walk and a panic harm none of the next inputs."""
    create = candidate(CREATE, 0, 0, MUTABLE, OTHER)
    good = job(plain(1), [], [], [place(0)], [], [(0, 0, [create])])
    no_function = job(plain(1), [], [], [place(0)], [], [(0, 0, [candidate(13, second=0, function=5)])])
    endless = job(plain(2), [[1, MUTABLE, 0], [2, MUTABLE, 0]], [[0, 1], [1, 1], [1, 2]],
                  [place(0), place(1)], [[0, 1, 1, 0, 0]], [(0, 0, [candidate(0, 0, reason=OTHER)])],
                  next=3, options=3, links=[[1, 0]])
    inputs = [good, b"abcd", good, no_function, good, endless, good]
    stream = b"".join(struct.pack("<I", len(data)) + data for data in inputs)
    wanted = []
    for data in inputs:
        answer = oracle(data, "--job", "--words")
        wanted.append(struct.pack("<I", len(answer)) + answer)
    check("batch", oracle(stream, "--batch", "job"), b"".join(wanted))
    check("batch, bad input", unpacked(wanted[1])[1:], [0xFFFFFFFD])
    check("batch, panic", unpacked(wanted[3])[1:], [0xFFFFFFFF])
    check("batch, endless", unpacked(wanted[5])[1], 11)


for case in [batch, case_1, case_10, case_11, case_12, case_13, case_14, case_15, case_16, case_17, case_18]:
    case()
extra.run(check, listing, oracle, results)
print(f"{passed} passed, {failed} failed")
sys.exit(failed != 0)
