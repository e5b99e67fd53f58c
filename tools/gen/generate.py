"""Makes inputs by seed: a stream of [byte length][bytes] on standard output.

python3 generate.py --seed 1 --count 1000 --kind image | oracle --batch image
With --tags FILE, one line per input says what it aims at; for damaged images the
line begins with the refusal that the table of damage.py states.
"""

import argparse
import random
import sys

sys.dont_write_bytecode = True

import damage
import image_profiles
import job_profiles
import op_profiles
from words import to_stream

PROFILES = {"image": image_profiles, "job": job_profiles, "op": op_profiles}


# One input of a kind: two in five are exhaustive cases, the others random profiles by weight.
# Everything comes from the given random numbers, nothing from hash order.
def one(kind, rng):
    profiles = PROFILES[kind]
    if rng.random() < 0.4:
        cases = profiles.all_cases()
        tag, build, case = cases[rng.randrange(len(cases))]
        return tag, build(rng, case)
    weights = [weight for weight, _, _ in profiles.RANDOM]
    _, tag, build = rng.choices(profiles.RANDOM, weights)[0]
    return tag, build(rng)


# `count` inputs of a kind as (tag, bytes); each has its own random numbers.
# So one input does not depend on how many numbers the ones before it drew.
def inputs(kind, seed, count):
    rng = random.Random(seed)
    for _ in range(count):
        tag, made = one(kind, random.Random(rng.getrandbits(64)))
        yield tag, made.bytes()


# `count` damaged images as (tag, bytes), the refusal in front of the tag.
# Whole rounds of the table, one after the other, until there are enough.
def damaged(seed, count):
    made = []
    while len(made) < count:
        made += [("%d %s" % (n, tag), data) for tag, n, data in damage.one_round(seed)]
        seed += 1
    return made[:count]


# Reads the command line and writes the stream.
# Tags go to a file, since standard output is the stream.
def main():
    parser = argparse.ArgumentParser()
    parser.add_argument("--seed", type=int, default=1)
    parser.add_argument("--count", type=int, default=100)
    parser.add_argument("--kind", choices=["image", "job", "op", "damaged"], required=True)
    parser.add_argument("--tags")
    args = parser.parse_args()
    if args.kind == "damaged":
        made = damaged(args.seed, args.count)
    else:
        made = list(inputs(args.kind, args.seed, args.count))
    sys.stdout.buffer.write(to_stream(data for _, data in made))
    if args.tags:
        with open(args.tags, "w") as out:
            out.writelines(tag + "\n" for tag, _ in made)


if __name__ == "__main__":
    main()
