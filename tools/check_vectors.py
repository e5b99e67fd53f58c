"""Checks the recorded lists of vectors/ without the oracle; exit 1 if something fails.

Containers, structure of every input and answer, the counts of vectors/COUNTS.txt,
and that everything that must occur does.
"""

import os
import sys
import zlib

sys.dont_write_bytecode = True
HERE = os.path.dirname(os.path.abspath(__file__))
VECTORS = os.path.join(HERE, "..", "vectors")
sys.path.insert(0, os.path.join(HERE, "gen"))

import accept  # noqa: E402
import model  # noqa: E402
import parse  # noqa: E402
from names import *  # noqa: E402
from words import read_list, unpack, words_as_bytes  # noqa: E402

LISTS = ["images.bin", "jobs.bin", "ops.bin", "damaged.bin", "large_jobs.bin"]


# What must occur somewhere, by name of the check.
# Apply (12) is left out of document 01, so no list holds it as an effect.
def wanted():
    codes = [c for c in range(18) if c != APPLY]
    return {
        "image listed code": [c for c in codes if c != IMPURE],
        "image candidate code": [c for c in codes if c not in DIAGNOSED],
        "image refusal": [0, 6, 7, 9, 11],
        "job listed code": codes,
        "job candidate code": codes,
        "job interned code": codes,
        "job cached key": [9, 10, 13, 18, 19],
        "job refusal": [0, 6, 7, 8, 9, 10, 11],
        "sentence": list(range(11)),
        "message case": [0, 1],
        "operation": list(range(1, 14)),
        "damaged refusal": [1, 2, 3, 4, 5],
    }


class Check:
    """Collects what fails and what occurs."""

    # Nothing failed and nothing seen yet.
    # `seen` maps the name of a check to the set of what occurred.
    def __init__(self):
        self.failures = []
        self.seen = {name: set() for name in wanted()}

    # Notes a failure.
    # All of them are printed at the end.
    def fail(self, text):
        self.failures.append(text)

    # Notes that something occurred.
    # Compared with what must occur at the end.
    def saw(self, name, what):
        self.seen[name].add(what)


# One image and its listing.
# A recorded image is never refused with 1 to 5.
def check_image(check, given, answer):
    data = words_as_bytes(given)
    _, sections = parse.image(unpack(data))
    if model.refusal(data):
        raise ValueError("refused with %d by the model" % model.refusal(data))
    text = parse.listing(words_as_bytes(answer).decode("ascii"))
    for c in sections[5]:
        check.saw("image candidate code", c[0])
    check.saw("image refusal", text["refused"])
    for e in text.get("E", []):
        check.saw("image listed code", e[0])


# One library job and its answer.
# It must be a job that the port accepts. Sentences and message cases are read from the final table of diagnostics.
def check_job(check, given, answer):
    job = parse.job(given)
    for slip in accept.job_slips(job)[:1]:
        raise ValueError(slip)
    out = parse.job_answer(answer, len(job["instructions"]))
    for _, _, candidates in job["instructions"]:
        for c in candidates:
            check.saw("job candidate code", c[0])
    for result, _, effects in out["results"]:
        check.saw("job refusal", result)
        for e in effects:
            check.saw("job listed code", e["code"])
    for e in out["interned"]:
        check.saw("job interned code", e["code"])
    for fixed, _ in out["cached"]:
        check.saw("job cached key", fixed[1])
    for d in out["diagnostics"][len(job["diagnostics"]):]:
        check.saw("message case", d[2])
        if d[2] == 0:
            check.saw("sentence", d[3])


# One state operation and its answer.
# Both are read whole, and the states must be accepted ones.
def check_op(check, given, answer):
    operation = parse.operation(given)
    for slip in accept.operation_slips(operation)[:1]:
        raise ValueError(slip)
    check.saw("operation", operation["op"])
    parse.operation_answer(answer)


# One damaged image with its stated refusal.
# The model of refusals 1 to 5 must say the same.
def check_damaged(check, given, answer):
    data = words_as_bytes(given)
    text = words_as_bytes(answer).decode("ascii")
    refused = parse.listing(text)["refused"]
    if not 1 <= refused <= 5 or model.refusal(data) != refused:
        raise ValueError("stated %s, model %d" % (text.strip(), model.refusal(data)))
    check.saw("damaged refusal", refused)


# The lines "name records bytes checksum" of COUNTS.txt.
# A list that was cut or changed by hand is so noticed.
def stated_counts():
    counts = {}
    with open(os.path.join(VECTORS, "COUNTS.txt")) as lines:
        for line in lines:
            name, records, size, checksum = line.split()
            counts[name] = (int(records), int(size), checksum)
    return counts


# Reads one list and checks each of its records; returns how many there are.
# A file or record that cannot be read is a failure.
def check_list(check, name, one, stated):
    try:
        with open(os.path.join(VECTORS, name), "rb") as source:
            data = source.read()
        records = read_list(data)
    except (OSError, ValueError, IndexError) as problem:
        check.fail("%s: %s" % (name, problem))
        return 0
    found = (len(records), len(data), "%08x" % zlib.crc32(data))
    if stated.get(name) != found:
        check.fail("%s: COUNTS.txt says %s, found %s" % (name, stated.get(name), found))
    for number, (given, answer) in enumerate(records):
        try:
            one(check, given, answer)
        except (ValueError, IndexError, KeyError) as problem:
            check.fail("%s, record %d: %s" % (name, number, problem))
    if len({tuple(given) for given, _ in records}) != len(records):
        check.fail("%s: inputs are doubled" % name)
    return len(records)


# Checks all lists and prints what fails.
# The exit code is for the gate.
def main():
    check = Check()
    try:
        stated = stated_counts()
    except (OSError, ValueError) as problem:
        stated = {}
        check.fail("COUNTS.txt: %s" % problem)
    total = ["%d %s" % (check_list(check, name, one, stated), name)
             for name, one in zip(LISTS, [check_image, check_job, check_op, check_damaged, check_job])]
    for name, items in wanted().items():
        for item in items:
            if item not in check.seen[name]:
                check.fail("missing: %s %d" % (name, item))
    for text in check.failures[:50]:
        print("FAIL " + text)
    if check.failures:
        sys.exit(1)
    print("vectors: " + ", ".join(total))


if __name__ == "__main__":
    main()
