"""Compares the definition of `infer` (crates/def_image) with recorded images.

python3 tools/compare/images.py LIST [--count N] [--small M] [--seed S] [--most BYTES]
    [--only I,J,..] [--per-file K]

LIST is vectors/images.bin or vectors/damaged.bin (docs/VECTORS.md, 4). Of it are taken the
M smallest records, then others at random by the seed, N in all, none above BYTES bytes.
For each a test `T (eq_list (infer bytes) (ascii "listing"))` is written into a throw-away
repository, a folder compare-images among the temporary ones (`rt ci` refuses one inside this checkout), and
checked there: the prover computes the definition and nothing is run. A record is `equal`, or DIFFERENT with what the definition computes, or `not computed`
where the prover met its limit of steps or of memory (all that were tried below 20,000 bytes stay below it).
Exit status 0 if none is different.
"""

import argparse
import os
import random
import re
import shutil
import struct
import subprocess
import sys
import tempfile
import time

ROOT = os.path.abspath(os.path.join(os.path.dirname(os.path.abspath(__file__)), "..", ".."))
PLACE = os.path.join(tempfile.gettempdir(), "compare-images")
NEEDED = ["base_tests", "base_orders", "base_sets", "def_kinds", "def_effects", "def_transfer", "def_image"]

HEAD = """use Rattle.std.specs.Prelude.{ℕ, zero, suc, ◌+◌, ◌*◌, List, [], ◌∷◌, T}
use Rattle.def_effects.specs.Keys.{eq_list}
use Rattle.def_image.specs.Listing.{ascii}
use Rattle.def_image.specs.Infer.{infer}
use Rattle.def_image.proofs.Laws.Computing.{computing}
"""

SHOW = """
packed : List ℕ → ℕ
packed [] = 1
packed (b ∷ bs) = b + 256 * packed bs

data Shows (n : ℕ) : Type 0 where
  shows : Shows n

shown : Shows 0
shown = shows

"""


# The records of a list: bytes of the image, text of the listing.
# A list that ends too soon, or too late, is an error: it is still being written.
def read_list(path):
    data = open(path, "rb").read()
    words = struct.unpack("<%dI" % (len(data) // 4), data)
    records, at = [], 1

    def part(at):
        count = words[at]
        body = words[at + 1:at + 1 + count]
        return struct.pack("<%dI" % (count - 1), *body[1:])[:body[0]], at + 1 + count

    for _ in range(words[0]):
        image, at = part(at)
        answer, at = part(at)
        records.append((image, answer.decode("ascii")))
    if at != len(words):
        raise SystemExit("%s: %d words, %d read" % (path, len(words), at))
    return records


# Which records are compared: the smallest, then others at random.
# The same seed picks the same ones.
def pick(records, count, small, seed, most):
    fit = sorted((k for k in range(len(records)) if len(records[k][0]) <= most), key=lambda k: (len(records[k][0]), k))
    chosen = fit[:min(small, count)]
    rest = fit[len(chosen):]
    random.Random(seed).shuffle(rest)
    return chosen + rest[:count - len(chosen)]


# A throw-away repository with copies of the crates that the tests need.
# What was proved of those crates is kept where they have not changed; of the tests nothing is kept.
def prepare():
    os.makedirs(os.path.join(PLACE, "crates"), exist_ok=True)
    lines = [line for line in open(os.path.join(ROOT, "crates.txt"), encoding="utf-8")
             if line.split(":")[0] in NEEDED]
    with open(os.path.join(PLACE, "crates.txt"), "w", encoding="utf-8") as f:
        f.writelines(line.rstrip("\n") + "\n" for line in lines)
        f.write("compare: %s\n" % " ".join(NEEDED))
    shutil.rmtree(os.path.join(PLACE, "crates", "compare"), ignore_errors=True)
    for name in NEEDED:
        target = os.path.join(PLACE, "crates", name)
        for part in ("src", "specs", "proofs"):
            shutil.rmtree(os.path.join(target, part), ignore_errors=True)
        shutil.copytree(os.path.join(ROOT, "crates", name), target, ignore=shutil.ignore_patterns("out", "must-fail"), dirs_exist_ok=True)


# A list of bytes as antt writes it.
# Lines are kept short, so that messages stay readable.
def as_list(data):
    return " ∷ ".join([str(b) for b in data] + ["[]"])


# A text as antt quotes it.
# Listings hold letters, digits, blanks, dashes and newlines alone.
def as_text(text):
    return '"%s"' % text.replace("\n", "\\n")


# Writes the crate `compare`: one definition for each record, some to a file.
# `one` gives a record's definition; the head is the same for all.
def write(records, chosen, per_file, one, extra=""):
    base = os.path.join(PLACE, "crates", "compare")
    shutil.rmtree(base, ignore_errors=True)
    os.makedirs(os.path.join(base, "specs"))
    os.makedirs(os.path.join(base, "src"))
    with open(os.path.join(base, "src", "lib.rt"), "w") as f:
        f.write("// Generated tests.\n#![tactic(auto)]\n")
    names = []
    for start in range(0, len(chosen), per_file):
        name = "Part%d" % (start // per_file)
        names.append(name)
        with open(os.path.join(base, "specs", name + ".antt"), "w", encoding="utf-8") as f:
            f.write(HEAD + extra)
            for k in chosen[start:start + per_file]:
                f.write("\nabbrev bytes-%d : List ℕ\nbytes-%d = %s\n\n%s" % (k, k, as_list(records[k][0]), one(k)))
    with open(os.path.join(base, "specs", "Lib.antt"), "w") as f:
        f.writelines("pub mod %s\n" % n for n in names)


# Checks the crate `compare` and gives back all that was printed.
# A refused test is no failure of the check here.
def check(words):
    run = subprocess.run(["rt", "check"] + words, cwd=os.path.join(PLACE, "crates", "compare"),
                         stdout=subprocess.PIPE, stderr=subprocess.STDOUT, text=True)
    return run.returncode, run.stdout


# The test of a record.
# It is accepted just if the definition computes the listing.
def test_of(records, k):
    return ("pub test-%d : T (eq_list (infer bytes-%d) (ascii %s))\nunfolding computing\ntest-%d = tt\n"
            % (k, k, as_text(records[k][1]), k))


# What the definition computes of some records: a test that is refused shows it as one number.
# The number has the listing's bytes as digits to base 256, lowest first, and a 1 above them.
def computed(records, ks):
    write(records, ks, 1, lambda k: "show-%d : Shows (packed (infer bytes-%d))\nunfolding computing packed\nshow-%d = shown\n" % (k, k, k), SHOW)
    _, out = check([])
    answers = {}
    for part in re.split(r"error: (?:in )?`show-", out)[1:]:
        number = re.search(r"(?:`Shows |has `)(\d{2,})`", part)
        if number:
            n = int(number.group(1))
            answers[int(part.split("`")[0])] = n.to_bytes((n.bit_length() + 7) // 8, "little")[:-1].decode("latin-1")
    return answers


# Picks, checks and reports.
# One line for each record, then the figures.
def main():
    parser = argparse.ArgumentParser()
    parser.add_argument("list")
    parser.add_argument("--count", type=int, default=300)
    parser.add_argument("--small", type=int, default=50)
    parser.add_argument("--seed", type=int, default=1)
    parser.add_argument("--most", type=int, default=4096)
    parser.add_argument("--only", default="")
    parser.add_argument("--per-file", type=int, default=10)
    args = parser.parse_args()
    records = read_list(args.list)
    chosen = [int(k) for k in args.only.split(",")] if args.only else pick(records, args.count, args.small, args.seed, args.most)
    prepare()
    write(records, chosen[:1], 1, lambda k: "")
    code, out = check([])
    if code != 0:
        raise SystemExit(out)
    write(records, chosen, args.per_file, lambda k: test_of(records, k))
    begun = time.time()
    code, out = check([])
    spent = time.time() - begun
    with open(os.path.join(PLACE, "last.txt"), "w") as f:
        f.write(out)
    refused, stopped = set(), set()
    for part in re.split(r"error: (?:in )?`test-", out)[1:]:
        k = int(part.split("`")[0])
        if "step limit" in part or "memory limit" in part:
            stopped.add(k)
        elif "expected type `⊥`" in part or "are `⊥` (expected)" in part:
            refused.add(k)
        else:
            raise SystemExit(out)
    if code not in (0, 1, 3) or (code == 0) != (not refused and not stopped):
        raise SystemExit(out)
    answers = computed(records, sorted(refused)) if refused else {}
    for k in chosen:
        image, expected = records[k]
        if k in refused:
            print("%d: %d bytes, DIFFERENT\n  recorded: %r\n  computed: %r" % (k, len(image), expected, answers.get(k)))
        else:
            print("%d: %d bytes, %s: %s" % (k, len(image), expected.split("\n")[0], "not computed" if k in stopped else "equal"))
    print("%s: %d taken, %d equal, %d different, %d not computed; %.1f s, %.2f s each"
          % (os.path.basename(args.list), len(chosen), len(chosen) - len(refused) - len(stopped), len(refused), len(stopped), spent, spent / len(chosen)))
    sys.exit(1 if refused else 0)


if __name__ == "__main__":
    main()
