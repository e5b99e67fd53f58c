"""Times the operations of a state on a sparse and on a full table, with the program of crates/bench_state.

Needs `rt run -- 1 0 0` in crates/bench_state before, which builds out/bench_state there. Prints a table of nanoseconds an operation.
"""

import os
import subprocess
import sys
import time

sys.dont_write_bytecode = True
PROGRAM = os.path.join(os.path.dirname(os.path.abspath(__file__)), "..", "crates", "bench_state", "out", "bench_state")
NAMES = ["kind", "freeze", "merge_from", "phi"]
EMPTYING = 9


# Seconds that the program takes, the least of five runs.
# The least, since everything else on the machine only adds.
def seconds(operation, table, power):
    best = None
    for _ in range(5):
        start = time.perf_counter()
        subprocess.run([PROGRAM, str(operation), str(table), str(power)], check=True, stdout=subprocess.DEVNULL)
        took = time.perf_counter() - start
        best = took if best is None else min(best, took)
    return best


# Nanoseconds an operation: what the repetitions add to a run with one.
# The power of ten is chosen so that a run takes some tenths of a second.
def cost(operation, table):
    base = seconds(operation, table, 0)
    for power in (3, 4, 5, 6):
        took = seconds(operation, table, power) - base
        if took > 0.05:
            break
    return took / 10**power * 1e9


# A merge starts from a state that was just emptied, so that it adds everything; the emptying is taken off.
def main():
    emptying = cost(EMPTYING, 0)
    print("| operation | sparse, core | full, core | sparse, public call | full, public call |")
    print("|--|--|--|--|--|")
    for k, name in enumerate(NAMES):
        row = [cost(k + 1, 0), cost(k + 1, 1), cost(k + 5, 0), cost(k + 5, 1)]
        if name == "merge_from":
            row = [x - emptying for x in row]
        print("| %s | %s |" % (name, " | ".join("%.0f ns" % x for x in row)))
    print("emptying a state: %.0f ns" % emptying)


main()
