"""Compares the program `infer` with the oracle and the plain model on generated images.

python3 tools/compare/infer.py --valid 1000 --damaged 1000 [--seed 1] [--jobs J] [--program PATH]
        [--oracle PATH] [--keep FOLDER] [--seconds 10] [--tries 2000] [--no-program] [--self-test]

Valid images come from tools/gen, some from edges.py; their listings come from the oracle. Damaged ones are, in
equal shares, the table of tools/gen/damage.py, mutations of valid images, and byte strings (mutate.py); what
they earn, the plain model says (plain.py). One that earns nothing goes to the oracle like a valid one. The
program runs once per image in a fresh process; it must end with 0 and write nothing to standard error. The
image comes to it from a file, through a pipe, or through a pipe in pieces, by turns.

With the same seed and numbers the same images are made, whatever the number of jobs. A difference of each
sort is shrunk (shrink.py) and written to the folder. Exit status 1 on any difference or slip. A slip is not
the program's: the generator's image isn't valid, the table and the plain model differ, or the oracle has no
proper answer.
"""

import argparse
import collections
import functools
import multiprocessing
import os
import random
import re
import sys
import tempfile
import time
import zlib
from concurrent import futures

sys.dont_write_bytecode = True

HERE = os.path.dirname(os.path.abspath(__file__))
ROOT = os.path.dirname(os.path.dirname(HERE))
sys.path.insert(0, os.path.join(ROOT, "tools", "gen"))

import damage
import generate
import image_profiles
import mutate
import plain
import running
from edges import EDGES
from shrink import shrink
from words import unpack

# The exhaustive cases don't depend on the seed; making their list once keeps the generator quick.
image_profiles.all_cases = functools.lru_cache(None)(image_profiles.all_cases)

VALID, TABLE, MUTATED, STRINGS = "valid", "table", "mutated", "strings"

# Images in one task. A round of the damage table has some 1,570 images, of which one task takes a part.
SIZES = {VALID: 200, TABLE: 400, MUTATED: 200, STRINGS: 200}

# Sorts of difference that are shrunk, and slips that are shown.
MOST_SHRUNK, MOST_SLIPS = 8, 10

# The oracle's proper answers; it doesn't know the refusals 1 to 5.
PROPER = re.compile(rb"(OK \d|REFUSED (6|7|8|9|10|11)\n$)")

# An image to be judged: its tag, the refusal that is stated for it or None, its bytes.
Item = collections.namedtuple("Item", "tag stated data")

# A difference: where the image came from, the image, how it was fed, and both answers.
Found = collections.namedtuple("Found", "group tag data feed expected answer")

# ------------------------------------------------------------------ making images


# The tasks (group, number, size) for so many valid and damaged images.
# They depend on nothing else, so the images are the same for any number of jobs.
def tasks(valid, damaged):
    shares = [(VALID, valid)]
    shares += [(group, (damaged + 2 - k) // 3) for k, group in enumerate((TABLE, MUTATED, STRINGS))]
    out = []
    for group, count in shares:
        full, rest = divmod(count, SIZES[group])
        out += [(group, number, SIZES[group]) for number in range(full)]
        out += [(group, full, rest)] if rest else []
    return out


# Random numbers that belong to a seed and some names.
# Text as a seed gives the same numbers in every process.
def numbers_for(*names):
    return random.Random(" ".join(str(name) for name in names))


# Valid images; a task of full size begins with those of edges.py and one of the giants, the first one with
# the paper's cases and all giants. Nothing is stated for them but that they earn none of 1 to 5.
def valid_items(seed, number, size):
    rng, items = numbers_for(seed, VALID, number), []
    if size == SIZES[VALID]:
        giants = image_profiles.GIANTS
        builds = EDGES + (giants if number == 0 else [rng.choice(giants)])
        items += [Item(tag, 0, build(numbers_for(seed, number, tag)).bytes()) for tag, build in builds]
        if number == 0:
            items += [Item(tag, 0, im.bytes()) for tag, im in image_profiles.paper_cases()]
    made = generate.inputs("image", rng.getrandbits(64), size - len(items))
    return items + [Item(tag, 0, data) for tag, data in made]


# Images of the damage table with their stated refusals, drawn from a round of its own.
# The first task of full size begins with the odd ones, which no round has.
def table_items(seed, number, size):
    rng = numbers_for(seed, TABLE, number)
    made = list(damage.one_round(rng.getrandbits(32)))
    rng.shuffle(made)
    first = list(damage.odd()) if number == 0 and size == SIZES[TABLE] else []
    return [Item(tag, stated, data) for tag, stated, data in (first + made)[:size]]


# Mutations or byte strings; nothing is stated for them.
# Each has random numbers of its own.
def free_items(group, seed, number, size):
    make = mutate.mutated if group == MUTATED else mutate.strings
    made = [make(numbers_for(seed, group, number, at)) for at in range(size)]
    return [Item(tag, None, data) for tag, data in made]


# The images of a task.
# Only these are in memory at a time, for each job.
def items_of(seed, task):
    group, number, size = task
    if group == VALID:
        return valid_items(seed, number, size)
    if group == TABLE:
        return table_items(seed, number, size)
    return free_items(group, seed, number, size)


# ---------------------------------------------------------------------- judging


class Report:
    """What a task, or all of them, showed."""

    # Starts with nothing.
    # Times are kept by counts of tens of microseconds, so memory doesn't grow with the images.
    def __init__(self):
        self.counts = collections.Counter()
        self.sum = 0
        self.times = collections.Counter()
        self.slowest = (0.0, "")
        self.sorts = collections.Counter()
        self.first = {}
        self.slips = []
        self.slip_count = 0

    # Notes an image by its group and refusal, and adds its checksum.
    # The sum doesn't depend on the order, so it shows whether two runs had the same images.
    def image(self, group, refusal, data):
        self.counts[group, refusal] += 1
        self.sum = (self.sum + zlib.crc32(data)) & 0xFFFFFFFF

    # Notes one run's time.
    # Those fed in pieces have pauses of the feeder in them and don't count.
    def took(self, seconds, tag):
        self.times[int(seconds * 100000)] += 1
        self.slowest = max(self.slowest, (seconds, tag))

    # Notes a slip, which isn't the program's.
    # Only the first few are kept whole.
    def slip(self, text, data):
        self.slip_count += 1
        if len(self.slips) < MOST_SLIPS:
            self.slips.append((text, data))

    # Notes a difference; of each sort the smallest image is kept, the first made among equals.
    # So what is kept doesn't depend on which job was quicker.
    def differs(self, sort, order, found):
        self.sorts[sort] += 1
        key = (len(found.data), order)
        if sort not in self.first or key < self.first[sort][0]:
            self.first[sort] = (key, found)

    # Takes another report in.
    # Of the slips, again only the first few.
    def join(self, other):
        self.counts.update(other.counts)
        self.sum = (self.sum + other.sum) & 0xFFFFFFFF
        self.times.update(other.times)
        self.sorts.update(other.sorts)
        self.slowest = max(self.slowest, other.slowest)
        self.slip_count += other.slip_count
        self.slips = (self.slips + other.slips)[:MOST_SLIPS]
        for sort, (key, found) in other.first.items():
            if sort not in self.first or key < self.first[sort][0]:
                self.first[sort] = (key, found)

    # The median time in seconds, to within ten microseconds.
    # Zero if nothing ran.
    def median(self):
        half, seen = (sum(self.times.values()) + 1) // 2, 0
        for tens in sorted(self.times):
            seen += self.times[tens]
            if seen >= half:
                return tens / 100000
        return 0.0


# The first line of an answer as a short word: OK, REFUSED n, or other.
# Two differences with the same words before and after are of one sort.
def first_word(text):
    line = text.split(b"\n")[0]
    if re.fullmatch(rb"REFUSED \d{1,2}", line):
        return line.decode()
    return "OK" if line.startswith(b"OK ") else "nothing" if not text else "other"


# The sort of a difference between what is expected and an answer, or None.
# Ending and standard error come first, then refusals, then the first line that differs.
def sort_of(expected, answer):
    if answer.status is None:
        return "takes too long"
    if answer.status != 0:
        return "exit status %d" % answer.status
    if answer.err:
        return "writes to standard error"
    if answer.out == expected:
        return None
    wanted, got = first_word(expected), first_word(answer.out)
    if wanted != got:
        return "%s instead of %s" % (got, wanted)
    lines, others = expected.split(b"\n"), answer.out.split(b"\n")
    for line, other in zip(lines, others):
        if line != other:
            return "another line %s" % (line[:2].decode().strip() or "behind the end")
    return "lines are missing" if len(lines) > len(others) else "lines are added"


# How the image at a place in its task is fed.
# One in sixteen in pieces, the others by turns.
def feed_of(at):
    if at % 16 == 15:
        return running.PIECES
    return running.PIPE if at % 2 else running.FILE


# What is expected of each item as (place, item, refusal or 0, text); slips are left out.
# The oracle is asked once for all that earn none of 1 to 5.
def expectations(group, items, settings, report):
    out, open_ones = [], []
    for at, item in enumerate(items):
        number = plain.refusal(item.data)
        if item.stated is not None and item.stated != number:
            report.slip("%s, %s: %d is stated, the plain model says %d" % (
                group, item.tag, item.stated, number), item.data)
        elif number:
            out.append((at, item, number, b"REFUSED %d\n" % number))
        else:
            open_ones.append((at, item))
    answers = running.ask(settings.oracle, [item.data for _, item in open_ones])
    for (at, item), text in zip(open_ones, answers):
        if text is None or not PROPER.match(text):
            why = "nothing" if text is None else text.split(b"\n")[0][:80].decode("ascii", "replace")
            report.slip("%s, %s: the oracle says %s" % (group, item.tag, why), item.data)
        else:
            out.append((at, item, int(text[8:]) if text.startswith(b"REFUSED") else 0, text))
    return sorted(out, key=lambda entry: entry[0])


# Judges the items of a task: runs the program on each and compares.
# Damaged ones that are valid are counted apart.
def judge(group, number, items, settings):
    report = Report()
    for at, item, refusal, text in expectations(group, items, settings, report):
        apart = group in (MUTATED, STRINGS) and not 1 <= refusal <= 5
        report.image(group + ", valid" if apart else group, refusal, item.data)
        if settings.program is None:
            continue
        feed = feed_of(at)
        answer = running.run(settings.program, item.data, feed, settings.seconds)
        if feed != running.PIECES:
            report.took(answer.seconds, "%s, %s" % (group, item.tag))
        sort = sort_of(text, answer)
        if sort:
            report.differs(sort, (group, number, at), Found(group, item.tag, item.data, feed, text, answer))
    return report


# One task in a job: makes its images and judges them.
# What it needs and gives back goes between processes, so it is small.
def work(settings, task):
    group, number, _ = task
    return judge(group, number, items_of(settings.seed, task), settings)


# ---------------------------------------------------------------------- shrinking


# What is expected of an image, or None if the oracle has no proper answer to it.
# For the tries of the shrinking.
def expected_of(data, settings):
    number = plain.refusal(data)
    if number:
        return b"REFUSED %d\n" % number
    text = running.ask(settings.oracle, [data])[0]
    return text if text is not None and PROPER.match(text) else None


# Whether an image shows a difference of a sort.
# It is fed as the first one was.
def shows(data, sort, feed, settings):
    expected = expected_of(data, settings)
    if expected is None:
        return False
    return sort_of(expected, running.run(settings.program, data, feed, settings.seconds)) == sort


# The words of an image as text, for a reader.
# Bytes behind the last whole word come last, in hexadecimal.
def as_text(data):
    whole = len(data) // 4 * 4
    words = ["0x%X" % w if w > 0xFFFF else "%d" % w for w in unpack(data[:whole])]
    lines = [" ".join(words[at:at + 20]) for at in range(0, len(words), 20)]
    rest = ["and the bytes " + data[whole:].hex()] if data[whole:] else []
    return "\n".join(lines[:60] + (["..."] if len(lines) > 60 else []) + rest)


# Writes a difference to a folder of its own: both images, and what was expected and found for each.
# `about.txt` says the rest.
def keep(folder, sort, found, small, settings):
    os.makedirs(folder, exist_ok=True)
    about = "sort: %s\nimage: %s, %s, %d bytes, seed %d, fed from a %s\nsmall image: %d bytes\n%s\n" % (
        sort, found.group, found.tag, len(found.data), settings.seed, found.feed, len(small), as_text(small))
    parts = {"about.txt": about.encode(), "image.bin": found.data, "expected.txt": found.expected,
             "found.txt": found.answer.out, "found-errors.txt": found.answer.err, "small.bin": small}
    answer = running.run(settings.program, small, found.feed, settings.seconds)
    parts.update({"small-expected.txt": expected_of(small, settings) or b"", "small-found.txt": answer.out,
                  "small-found-errors.txt": answer.err})
    for name, data in parts.items():
        with open(os.path.join(folder, name), "wb") as out:
            out.write(data)
    return answer


# Shrinks the first difference of each sort, writes it, and prints what it is.
# Returns the small images by sort, for the self-test.
def shrink_all(report, settings):
    smalls = {}
    sorts = sorted(report.first, key=lambda sort: report.first[sort][0])
    for number, sort in enumerate(sorts[:MOST_SHRUNK]):
        found = report.first[sort][1]
        test = functools.partial(shows, sort=sort, feed=found.feed, settings=settings)
        again = test(found.data)
        small = shrink(found.data, test, settings.tries, 60.0) if again else found.data
        folder = os.path.join(settings.keep, "difference-%d" % (number + 1))
        answer = keep(folder, sort, found, small, settings)
        smalls[sort] = small
        say(settings, "%s: %d times, such as %s, %s (%d bytes, fed from a %s)%s" % (
            sort, report.sorts[sort], found.group, found.tag, len(found.data), found.feed,
            "" if again else "; NOT AGAIN in a second run"))
        say(settings, "  shrunk to %d bytes: %s" % (len(small), as_text(small).split("\n")[0]))
        say(settings, "  expected %s; found %s, status %s; in %s" % (
            shown(expected_of(small, settings)), shown(answer.out), answer.status, folder))
    if len(sorts) > MOST_SHRUNK:
        say(settings, "and %d more sorts: %s" % (len(sorts) - MOST_SHRUNK, "; ".join(sorts[MOST_SHRUNK:])))
    return smalls


# The beginning of a text in one line.
# Whole texts are in the folder.
def shown(text):
    return repr((text or b"").decode("ascii", "replace")[:100])


# ------------------------------------------------------------------------ the whole


# Prints a line, unless the self-test wants silence.
# One place for all results.
def say(settings, line):
    if not settings.quiet:
        print(line, flush=True)


# Prints how far it is, on standard error.
# Every few seconds, also while no task ends.
def progress(settings, done, total, report, begun):
    if not settings.quiet:
        sys.stderr.write("%d of %d images, %d s, %d differences, %d slips\n" % (
            done, total, time.monotonic() - begun, sum(report.sorts.values()), report.slip_count))
        sys.stderr.flush()


# The reports of all tasks, as they come, or None where a few seconds passed without one.
# With one job everything happens in this process; else a few tasks per job are under way at a time.
def reports(settings, todo):
    if settings.jobs == 1:
        for task in todo:
            yield work(settings, task)
        return
    left, pending = list(reversed(todo)), set()
    fork = multiprocessing.get_context("fork")
    with futures.ProcessPoolExecutor(settings.jobs, fork, running.limit_output) as pool:
        while left or pending:
            while left and len(pending) < 3 * settings.jobs:
                pending.add(pool.submit(work, settings, left.pop()))
            done, pending = futures.wait(pending, 4, futures.FIRST_COMPLETED)
            yield from (one.result() for one in done)
            if not done:
                yield None


# Runs all tasks and joins their reports.
# What is printed comes later.
def compare(settings, todo):
    whole, begun, told = Report(), time.monotonic(), time.monotonic()
    total, done = sum(size for _, _, size in todo), 0
    running.limit_output()
    for report in reports(settings, todo):
        if report is not None:
            whole.join(report)
            done = sum(whole.counts.values()) + whole.slip_count
        if time.monotonic() - told > 4:
            told = time.monotonic()
            progress(settings, done, total, whole, begun)
    return whole


# Prints the counts by group and refusal, the times, slips and differences.
# Only groups that occur have a line.
def print_report(settings, report, seconds):
    say(settings, "%-18s %8s" % ("group", "images") + "".join("%8d" % n for n in range(12)))
    groups = sorted({group for group, _ in report.counts}, key=lambda g: ("vtms".index(g[0]), len(g)))
    for group in groups:
        row = [report.counts[group, n] for n in range(12)]
        say(settings, "%-18s %8d" % (group, sum(row)) + "".join("%8d" % n for n in row))
    if report.times:
        say(settings, "one run of the program: median %.2f ms, slowest %.2f ms (%s)" % (
            report.median() * 1000, report.slowest[0] * 1000, report.slowest[1]))
    for at, (text, data) in enumerate(report.slips):
        path = os.path.join(settings.keep, "slip-%d.bin" % (at + 1))
        with open(path, "wb") as out:
            out.write(data)
        say(settings, "slip: %s; in %s" % (text, path))
    say(settings, "%d images (sum %08x) in %d s, %d slips, %d differences" % (
        sum(report.counts.values()), report.sum, seconds, report.slip_count, sum(report.sorts.values())))


# Compares, prints, shrinks; says whether all was well.
# Slips count like differences: they must be settled too.
def run_all(settings, todo):
    begun = time.monotonic()
    report = compare(settings, todo)
    print_report(settings, report, time.monotonic() - begun)
    if report.sorts:
        shrink_all(report, settings)
    return not report.sorts and not report.slip_count


# Reads the command line.
# Numbers of images are asked for, since no default is right.
def arguments():
    parser = argparse.ArgumentParser(description="Compares `infer` with the oracle and the plain model.")
    parser.add_argument("--valid", type=int, default=0)
    parser.add_argument("--damaged", type=int, default=0)
    parser.add_argument("--seed", type=int, default=1)
    parser.add_argument("--jobs", type=int, default=os.cpu_count() or 1)
    parser.add_argument("--program", default=os.path.join(ROOT, "crates", "infer", "out", "infer"))
    parser.add_argument("--oracle", default=os.path.join(ROOT, "target", "oracle", "oracle"))
    parser.add_argument("--keep", help="folder for differences (default: a temporary one)")
    parser.add_argument("--seconds", type=float, default=10.0, help="the most that one run may take")
    parser.add_argument("--tries", type=int, default=2000, help="runs for shrinking one difference")
    parser.add_argument("--no-program", action="store_true", help="only make images and ask the oracle")
    parser.add_argument("--self-test", action="store_true", help="show that it can fail")
    settings = parser.parse_args()
    if not settings.self_test and settings.valid + settings.damaged < 1:
        parser.error("say how many: --valid N --damaged M")
    for path in [settings.oracle] + ([] if settings.no_program or settings.self_test else [settings.program]):
        if not os.access(path, os.X_OK):
            parser.error("no program at " + path)
    return settings


# The comparison, or its self-test.
# Exit status 1 on any difference or slip.
def main():
    settings = arguments()
    settings.quiet = False
    settings.program = None if settings.no_program else os.path.abspath(settings.program)
    settings.oracle = os.path.abspath(settings.oracle)
    if settings.self_test:
        import infer_selftest
        raise SystemExit(0 if infer_selftest.all_well(settings) else 1)
    settings.keep = settings.keep or tempfile.mkdtemp(prefix="infer-")
    os.makedirs(settings.keep, exist_ok=True)
    good = run_all(settings, tasks(settings.valid, settings.damaged))
    if not os.listdir(settings.keep):
        os.rmdir(settings.keep)
    raise SystemExit(0 if good else 1)


if __name__ == "__main__":
    main()
