#!/usr/bin/env python3
"""Converts the recorded library jobs into lent words for crates/test_jobs, and makes the list of damaged ones.

    python3 tools/lent_jobs.py            writes crates/test_jobs/data/jobs.bin and refused.bin
    python3 tools/lent_jobs.py --check    compares them with what it would write; status 1 if they differ
    python3 tools/lent_jobs.py --names    prints the name and the class of each damaged job, by its number

Formats: docs/VECTORS.md, part 5. Nothing here needs the oracle or the port.
"""

import os
import sys

HERE = os.path.dirname(os.path.abspath(__file__))
sys.path.insert(0, os.path.join(HERE, "gen"))

import lent  # noqa: E402
import parse  # noqa: E402
from lent_class import call_class  # noqa: E402
from lent_damage import damaged_jobs  # noqa: E402
from words import pack, read_list  # noqa: E402

VECTORS = [os.path.join(HERE, "..", "vectors", name) for name in ("jobs.bin", "large_jobs.bin")]
DATA = os.path.join(HERE, "..", "crates", "test_jobs", "data")


# Every recorded job as a lent one; one that cannot be lent, or that the plain test refuses, is an error.
# No recorded job has a refusal 1 to 5.
def recorded_jobs():
    records = []
    for path in VECTORS:
        with open(path, "rb") as f:
            records += read_list(f.read())
    jobs = []
    for number, (given, answer) in enumerate(records):
        job = parse.job(given)
        result = parse.job_answer(answer, len(job["instructions"]))
        try:
            made = lent.of_job(job, result)
        except lent.NotLent as error:
            sys.exit("job %d cannot be lent: %s" % (number, error))
        lent.lend_room(made, number, len(result["interned"]))
        if len(result["interned"]) * lent.EFFECT > made.lengths[lent.INTERNED] or len(result["interned"]) > made.lengths[lent.EFFECT_ORDER]:
            sys.exit("job %d interns more effects than its instructions need" % number)
        if made.instructions and call_class(made):
            sys.exit("job %d earns %d" % (number, call_class(made)))
        jobs.append(made)
    return jobs


# Writes a file, or says whether it is the one that would be written.
# One path for both, so that the check sees what is written.
def settle(name, data, check):
    path = os.path.join(DATA, name)
    if not check:
        os.makedirs(DATA, exist_ok=True)
        with open(path, "wb") as f:
            f.write(data)
        return True
    with open(path, "rb") as f:
        same = f.read() == data
    if not same:
        print("lent_jobs: crates/test_jobs/data/%s is not what vectors/jobs.bin and large_jobs.bin make" % name, file=sys.stderr)
    return same


# Both lists, by the one option.
# An unknown option is an error.
def main():
    options = sys.argv[1:]
    if options not in ([], ["--check"], ["--names"]):
        sys.exit(__doc__)
    jobs = recorded_jobs()
    damaged = damaged_jobs(jobs)
    if options == ["--names"]:
        for number, (name, job) in enumerate(damaged):
            print(number, job.instructions[0].refusal, name)
        return
    check = options == ["--check"]
    lists = [("jobs.bin", jobs), ("refused.bin", [job for _, job in damaged])]
    results = [settle(name, pack(lent.list_words(made)), check) for name, made in lists]
    if not all(results):
        sys.exit(1)


if __name__ == "__main__":
    main()
