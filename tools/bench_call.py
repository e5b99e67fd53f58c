"""Times the call for one instruction beside the Rust, and finds out how much stack the call needs.

Needs `rt run -- 1 0` in crates/bench_call (builds out/bench_call there) and `oracle/build.sh` (builds target/oracle/oracle) before.
Prints microseconds a call of both and their ratio, on nearly empty, middling and full tables, and kilobytes of stack.
"""

import os
import resource
import struct
import subprocess
import sys
import tempfile
import time

sys.dont_write_bytecode = True
ROOT = os.path.join(os.path.dirname(os.path.abspath(__file__)), "..")
PROGRAM = os.path.join(ROOT, "crates", "bench_call", "out", "bench_call")
ORACLE = os.path.join(ROOT, "target", "oracle", "oracle")
NONE = 0xFFFFFFFF


# A library job of docs/VECTORS.md, part 2, with one instruction.
# Sections that a benchmark does not need are empty.
def job(next_number, identifiers, values, pairs, places, diagnostics, interned, candidates, functions=(), cached=(), links=()):
    sections = (values, pairs, places, functions, diagnostics, interned, cached, links)
    words = [1, 0, 0, next_number, 0, 0, 0, 0, identifiers, *map(len, sections), 1] + [0] * (4 * identifiers)
    for section in sections:
        for record in section:
            words += record
    words += [1, 0, len(candidates)]
    for record in candidates:
        words += record
    return struct.pack("<%dI" % len(words), *words)


# Case 1 of document 01, as crates/bench_call lends it.
# Create into 0 as Frozen, State; Assign 0 to 1.
def nearly_empty():
    places = [[i, 0, 0, 0, 0] for i in range(2)]
    return job(1, 2, [], [], places, [], [], [[9, 0, 0, 1, 1, 0, 0, 0], [8, 0, 1, 0, 0, 0, 0, 0]])


# Place j of the 136 interned effects of middling tables, by their keys: 34 each of Freeze, Capture, MaybeAlias, ImmutableCapture.
# Sources 0 to 16; a Freeze with reason 0 or 1, the others into 18 or 19.
def middle_effect(j):
    code, source, turn = (0, 5, 7, 11)[j // 34], j % 34 // 2, j % 2
    return [code, source, 0, 0, turn, 0, 0, 0] if code == 0 else [code, source, 18 + turn, 0, 0, 0, 0, 0]


# Middling tables: 20 identifiers with 3 values each, those of 4 to 6 Frozen; 8 functions with 3 context places, each the function of a value;
# a cached number for each value; 136 interned effects. Four candidates that are interned already; the MaybeAlias derives an ImmutableCapture.
# The same numbers as in crates/bench_call.
def middle():
    places = [[i, 0, 0, 0, 0] for i in range(20)] + [[f + k, 3, 0, 0, 0] for f in range(8) for k in range(3)]
    values = [[v, *((1, 2) if 4 <= (v - 1) % 20 <= 6 else (0, 2048))] for v in range(1, 61)]
    pairs = [[i, i + 1 + 20 * k] for i in range(20) for k in range(3)]
    functions = [[1, 20 + 3 * f, 3, 0, 0] for f in range(8)]
    cached = [[9, 0, v % 20, 0, v // 20, 0, 0, 0, v] for v in range(1, 61)]
    interned = [middle_effect(j) for j in sorted(range(136), key=lambda j: j * 37 % 136)]
    candidates = [[5, 3, 18, 0, 0, 0, 0, 0], [11, 7, 19, 0, 0, 0, 0, 0], [7, 5, 18, 0, 0, 0, 0, 0], [0, 6, 0, 0, 1, 0, 0, 0]]
    return job(61, 20, values, pairs, places, [], interned, candidates, functions, cached, [[f + 1, f] for f in range(8)])


# Every table full, and an ImmutableCapture that is interned already.
# The same numbers as in crates/bench_call.
def full():
    places = [[i, 0, 0, 0, 0] for i in range(512)]
    values = [[v, 0, 2048] for v in range(1, 1024)]
    pairs = [[i, v] for i in range(512) for v in range(1, 1024)]
    diagnostics = [[k, 0, 0, 0, NONE, NONE, 0, 0] for k in range(256)]
    interned = [[11, k % 512, k // 512, 0, 0, 0, 0, 0] for k in range(2048)]
    return job(512, 512, values, pairs, places, diagnostics, interned, [[11, 5, 1, 0, 0, 0, 0, 0]])


# Microseconds of one call of the Rust, the least of five runs.
# The oracle's own clock, around `apply_signature` alone.
def rust(words, times):
    with tempfile.NamedTemporaryFile() as file:
        file.write(words)
        file.flush()
        runs = [subprocess.run([ORACLE, "--job", "--time", str(times), file.name], check=True, capture_output=True, text=True).stdout for _ in range(5)]
    return min(float(run) for run in runs) / 1000


# Seconds that the program takes, the least of five runs.
# The least, since everything else on the machine only adds.
def seconds(kind, power):
    best = None
    for _ in range(5):
        start = time.perf_counter()
        subprocess.run([PROGRAM, str(kind), str(power)], check=True, stdout=subprocess.DEVNULL)
        took = time.perf_counter() - start
        best = took if best is None else min(best, took)
    return best


# Microseconds of one call of the port.
# What the repetitions add to a run with one.
def port(kind, power):
    return (seconds(kind, power) - seconds(kind, 0)) / (10**power - 1) * 1e6


# Whether the program ends well with so many kilobytes of stack.
# Its tables stand on the stack too.
def fits(kind, power, kilobytes):
    def limit():
        resource.setrlimit(resource.RLIMIT_STACK, (kilobytes * 1024, resource.RLIM_INFINITY))

    return subprocess.run([PROGRAM, str(kind), str(power)], preexec_fn=limit, capture_output=True).returncode == 0


# The least stack, in kilobytes, with which the program ends well; power 9 makes no call.
# Found by halving.
def least(kind, power):
    low, high = 64, 65536
    while high - low > 4:
        middle = (low + high) // 2
        low, high = (low, middle) if fits(kind, power, middle) else (middle, high)
    return high


# Kilobytes of stack that one call adds to a run without one.
# Functions without a loop of calls are partly in the caller's frame already, so that this is a little too low.
def stack(kind):
    return least(kind, 0) - least(kind, 9)


# Kilobytes of the tables that the deep walk is lent, which stand on the stack.
# What is left of the whole is too high by what the program itself needs.
def tables():
    context = 8 + 10432 + 5120 + 1024 + 14336 + 512 + 200704 + 2048 + 9 * 256
    return (8 * (1024 + 32 + 1056) + 4 * (context + 98 + 109760 + 23040)) // 1024


def main():
    print("| tables | Rust | port | ratio |")
    print("|--|--|--|--|")
    for name, words, times, kind, power in (("nearly empty", nearly_empty(), 100000, 1, 4), ("middle", middle(), 100000, 4, 4), ("full", full(), 10000, 2, 3)):
        theirs, ours = rust(words, times), port(kind, power)
        print("| %s | %.2f µs | %.1f µs | %.0f |" % (name, theirs, ours, ours / theirs))
    print("a call refused with 11 after a walk 4,096 entries deep: %.0f µs" % port(3, 2))
    print("stack: a walk 4,096 entries deep adds %d KB to a run without a call; the whole program with it needs %d KB, of which %d KB are lent tables" % (stack(3), least(3, 0), tables()))


main()
