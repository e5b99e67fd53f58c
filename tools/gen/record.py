"""Makes the recorded lists of vectors/ by running the oracle in batch.

python3 record.py [ORACLE]   (default: target/oracle/oracle of the repository)
Damaged images need no oracle: their answers are the table of damage.py.
"""

import os
import random
import subprocess
import sys
import zlib

sys.dont_write_bytecode = True

import damage
import generate
import parse
from names import *
from words import bytes_as_words, from_stream, list_bytes, to_stream, unpack

ROOT = os.path.join(os.path.dirname(os.path.abspath(__file__)), "..", "..")
VECTORS = os.path.join(ROOT, "vectors")
ORACLE = os.path.join(ROOT, "target", "oracle", "oracle")

# How many records a list has, its seed, how many exhaustive cases are taken, how many
# random inputs are made to choose from, and the largest random record in bytes.
PLAN = {
    "image": dict(file="images.bin", count=1400, seed=101, cases=760, pool=6000, most=2500),
    "job": dict(file="jobs.bin", count=1000, seed=202, cases=309, pool=6000, most=4500),
    "op": dict(file="ops.bin", count=760, seed=303, cases=700, pool=2000, most=1500),
}
DAMAGED = dict(file="damaged.bin", count=1000, seed=404)
LARGE = dict(file="large_jobs.bin", seed=505)


# Answers of the oracle to all inputs of a kind, in their order.
# One process for all of them; the stream must come back whole.
def ask(oracle, kind, inputs):
    done = subprocess.run([oracle, "--batch", kind], input=to_stream(inputs),
                          stdout=subprocess.PIPE, check=True)
    answers = from_stream(done.stdout)
    if len(answers) != len(inputs):
        raise SystemExit("the oracle answered %d of %d inputs" % (len(answers), len(inputs)))
    return answers


# Why an answer cannot be recorded, or None.
# FFFFFFFF: the Rust panicked otherwise; FFFFFFFE: ambiguous; FFFFFFFD: not accepted.
def why_dropped(kind, data, answer):
    names = {0xFFFFFFFF: "panicked", 0xFFFFFFFE: "ambiguous", 0xFFFFFFFD: "not accepted"}
    if len(answer) == 4 and unpack(answer)[0] in names:
        return names[unpack(answer)[0]]
    if kind == "image":
        text = answer.decode("ascii", "replace")
        if not text.startswith(("OK ", "REFUSED ")):
            return text.split(" ")[0].lower()
        refused = parse.listing(text)["refused"]
        return None if refused in (0, 6, 7, 8, 9, 10, 11) else "refusal %d" % refused
    if kind == "job":
        results = parse.job_answer(unpack(answer), unpack(data)[17])["results"]
        if any(r[0] in names for r in results):
            return "ambiguous"
    return None


# What an image and its listing show, as a set of features.
# A choice by features keeps the list small and reaches every branch.
def image_features(data, answer):
    _, sections = parse.image(unpack(data))
    out = parse.listing(answer.decode("ascii"))
    found = {("refused", out["refused"], sections[5][-1][0] if sections[5] else None)}
    if not out["refused"]:
        codes = [e[0] for e in out["E"]]
        found |= {("pair", a, b) for a, b in zip(codes, codes[1:])}
        found |= {("listed", e[0], e[3], e[4]) for e in out["E"]}
        found |= {("message", e[0], e[5]) for e in out["E"] if e[0] in DIAGNOSED}
        found |= {("entries", min(out["entries"], 40)), ("first", out["U"][0][0] is None)}
    return found


# Whether an effect shows a place that none of its instruction's candidates has.
# Then an interned effect was used in place of the candidate's own.
def from_interned(effect, places):
    return any(any(p) and tuple(p) not in places for p in (effect["first"], effect["second"]))


# What a job and its answer show, as a set of features.
# Results in order, listed effects, messages, cached keys, interned places.
def job_features(data, answer):
    job = parse.job(unpack(data))
    out = parse.job_answer(unpack(answer), len(job["instructions"]))
    results = tuple(r[0] for r in out["results"])
    found = {("results", results[:3])} | {("result", r) for r in results}
    for (_, _, candidates), (_, entries, effects) in zip(job["instructions"], out["results"]):
        used = {p for c in candidates for p in [c[1], c[2]] + list(range(c[6], c[6] + c[7]))}
        places = {tuple(job["places"][p]) for p in used}
        codes = [e["code"] for e in effects]
        found |= {("pair", a, b) for a, b in zip(codes, codes[1:])}
        found |= {("listed", e["code"], e["kind"], e["reason"], e["mutation"]) for e in effects}
        found |= {("interned", e["code"]) for e in effects if from_interned(e, places)}
        found.add(("entries", min(entries, 30)))
    for d in out["diagnostics"][len(job["diagnostics"]):]:
        found.add(("message", d[2], d[3], d[5:7] == [NO, NO], d[7:9] == [NO, NO]))
    found |= {("cached", f[1]) for f, _ in out["cached"]}
    found |= {("Effect", e) for f in out["functions"] for e in f}
    return found


# What an operation and its answer show, as a set of features.
# Operation, its answer, and whether the access changed.
def op_features(data, answer):
    given = parse.operation(unpack(data))
    out = parse.operation_answer(unpack(answer))
    return {("op", given["op"], tuple(out["answer"][:1]), out["access"] == given["head"][2:5])}


FEATURES = {"image": image_features, "job": job_features, "op": op_features}


# All inputs of a kind to choose from: (rank, tag, bytes).
# Rank 0 is always taken, rank 1 are the exhaustive cases, rank 2 the random ones.
def pool(kind, plan):
    profiles = generate.PROFILES[kind]
    rng = random.Random(plan["seed"])
    out = []
    if kind == "image":
        out += [(0, tag, im.bytes()) for tag, im in profiles.paper_cases()]
    for tag, build in profiles.GIANTS:
        out.append((0, tag, build(random.Random(rng.getrandbits(64))).bytes()))
    cases = profiles.all_cases()
    for number in sorted(rng.sample(range(len(cases)), min(plan["cases"], len(cases)))):
        tag, build, case = cases[number]
        out.append((1, tag, build(random.Random(rng.getrandbits(64)), case).bytes()))
    out += [(2, tag, data) for tag, data in generate.inputs(kind, plan["seed"], plan["pool"])]
    seen, unique = set(), []
    for item in out:
        if item[2] not in seen:
            seen.add(item[2])
            unique.append(item)
    return unique


# Chooses records: ranks 0 and 1, then small random ones that show something new,
# then random ones by turns over the tags until the count is reached.
def choose(kind, plan, items):
    features = FEATURES[kind]
    chosen = [it for it in items if it[0] < 2]
    known = set()
    for _, _, data, answer in chosen:
        known |= features(data, answer)
    rest = [it for it in items if it[0] == 2 and len(it[2]) + len(it[3]) <= plan["most"]]
    left = []
    for it in sorted(rest, key=lambda it: len(it[2]) + len(it[3])):
        new = features(it[2], it[3]) - known
        if new and len(chosen) < plan["count"]:
            known |= new
            chosen.append(it)
        else:
            left.append(it)
    turns, unused = {}, {it[2] for it in left}
    for it in rest:
        if it[2] in unused:
            turns.setdefault(it[1].split(" ")[0], []).append(it)
    while len(chosen) < plan["count"] and any(turns.values()):
        for tag in sorted(turns):
            if turns[tag] and len(chosen) < plan["count"]:
                chosen.append(turns[tag].pop(0))
    return chosen


# Writes a list and returns its line for COUNTS.txt: name, records, bytes, checksum.
# Records are pairs of word lists.
def write(name, records):
    data = list_bytes(records)
    with open(os.path.join(VECTORS, name), "wb") as out:
        out.write(data)
    return "%s %d %d %08x\n" % (name, len(records), len(data), zlib.crc32(data))


# Records one kind: ask the oracle, drop what it could not answer, choose, write.
# Images and listings stand in the list as byte strings.
def record(oracle, kind):
    plan = PLAN[kind]
    items = pool(kind, plan)
    answers = ask(oracle, kind, [it[2] for it in items])
    kept, dropped = [], {}
    for it, answer in zip(items, answers):
        why = why_dropped(kind, it[2], answer)
        if why:
            dropped.setdefault((why, it[1].split(" ")[0]), []).append(it[1])
        else:
            kept.append(it + (answer,))
    chosen = choose(kind, plan, kept)
    as_words = bytes_as_words if kind == "image" else unpack
    line = write(plan["file"], [(as_words(d), as_words(a)) for _, _, d, a in chosen])
    print("%s: %d made, %d dropped, %d recorded" % (
        kind, len(items), len(items) - len(kept), len(chosen)))
    for (why, _), tags in sorted(dropped.items()):
        print("  dropped, %s: %d (such as %s)" % (why, len(tags), tags[0]))
    return line


# Records the damaged images: the odd ones, all entries on one rich base, every other one on
# the two small bases, then entries on further rich bases until the count is reached.
def record_damaged():
    seed = DAMAGED["seed"]
    order = list(damage.odd()) + list(damage.on_base(seed, 0))
    order += list(damage.on_base(seed, 4))[::2] + list(damage.on_base(seed, 5))[::2]
    for number in (1, 2, 3):
        order += list(damage.on_base(seed, number))
    made, seen = [], set()
    for _, refusal, data in order:
        if len(made) < DAMAGED["count"] and data not in seen:
            seen.add(data)
            made.append((bytes_as_words(data), bytes_as_words(b"REFUSED %d\n" % refusal)))
    print("damaged: %d recorded" % len(made))
    return write(DAMAGED["file"], made)


# Records the greatest instructions, each by name; none may be dropped.
# A list of its own, so that the other ones stay as they are.
def record_large(oracle):
    rng = random.Random(LARGE["seed"])
    made = [build(random.Random(rng.getrandbits(64))).bytes() for _, build in generate.PROFILES["job"].GREATEST]
    answers = ask(oracle, "job", made)
    for data, answer in zip(made, answers):
        if why_dropped("job", data, answer):
            raise SystemExit("a large job was not answered: " + why_dropped("job", data, answer))
    print("large jobs: %d recorded" % len(made))
    return write(LARGE["file"], [(unpack(data), unpack(answer)) for data, answer in zip(made, answers)])


# Records all five lists and their counts; `--large` the last one alone, and its line is put in.
# The order of COUNTS.txt is that of the lists in docs/VECTORS.md.
def main():
    given = [word for word in sys.argv[1:] if word != "--large"]
    oracle = given[0] if given else ORACLE
    counts = os.path.join(VECTORS, "COUNTS.txt")
    if "--large" in sys.argv:
        with open(counts) as old:
            lines = [line for line in old if not line.startswith(LARGE["file"] + " ")]
    else:
        lines = [record(oracle, kind) for kind in ("image", "job", "op")] + [record_damaged()]
    lines.append(record_large(oracle))
    with open(counts, "w") as out:
        out.writelines(lines)


if __name__ == "__main__":
    main()
