"""Shows that tools/compare/infer.py can fail: wrong programs made on the fly must each be reported.

Called by `infer.py --self-test`. The programs are small Python wrappers: the plain model answers 1 to 5, the
oracle the rest, and one line spoils the answer. The right wrapper must show no difference. Needs the oracle.
"""

import copy
import os
import re
import shutil
import subprocess
import sys
import tempfile

import infer
import plain
import running
from infer import HERE, Item

# A wrapper: reads the image, answers rightly, then runs the line that spoils the answer.
# `text`, `err` and `status` are what it writes and ends with.
WRAPPER = '''#!%(python)s -IS
import os, struct, sys, time
sys.dont_write_bytecode = True
sys.path.insert(0, %(here)r)
import plain
err, status = b"", 0
data = %(read)s
number = plain.refusal(data)
if number:
    text = b"REFUSED %%d\\n" %% number
else:
    source, out = os.memfd_create("in"), os.memfd_create("out")
    os.write(source, data)
    os.lseek(source, 0, 0)
    actions = [(os.POSIX_SPAWN_DUP2, source, 0), (os.POSIX_SPAWN_DUP2, out, 1)]
    os.waitpid(os.posix_spawn(%(oracle)r, [%(oracle)r, "--image"], os.environ, file_actions=actions), 0)
    text = os.pread(out, 1 << 24, 0)
lines = text.split(b"\\n")
%(spoil)s
sys.stdout.buffer.write(text)
sys.stdout.buffer.flush()
sys.stderr.buffer.write(err)
sys.stderr.buffer.flush()
os._exit(status)
'''

READ_ALL = "sys.stdin.buffer.read()"

# Name, the line that spoils, the sort of difference that must be among those reported.
# Where the third is a tuple, one of them must.
WRONG = [
    ("3 instead of 4", 'text = b"REFUSED 3\\n" if number == 4 else text', "REFUSED 3 instead of REFUSED 4"),
    ("2 instead of 1", 'text = b"REFUSED 2\\n" if number == 1 else text', "REFUSED 2 instead of REFUSED 1"),
    ("a listing for an Apply", 'text = b"OK 0 0\\nU -\\n" if number == 5 else text',
     "OK instead of REFUSED 5"),
    ("4 for what is valid", 'text = b"REFUSED 4\\n" if not number else text', "REFUSED 4 instead of OK"),
    ("the last line is missing", 'text = b"\\n".join(lines[:-2] + [b""]) if not number else text',
     "another line U"),
    ("one digit is another",
     'text = b"\\n".join(line[:-1] + b"7" if line[:2] == b"V " else line for line in lines)',
     "another line V"),
    ("an extra newline", 'text += b"\\n"', "lines are added"),
    ("no newline at the end", "text = text[:-1]", "lines are missing"),
    ("a space at the end of a line", 'text = text.replace(b"\\nU", b" \\nU")',
     ("another line P", "another line V", "another line E")),
    ("nothing at all", 'text = b""', "nothing instead of OK"),
    ("exit status 1", "status = 1", "exit status 1"),
    ("exit status 3 for refusals alone", 'status = 3 if text[:1] == b"R" else 0', "exit status 3"),
    ("ended by a signal", "os.kill(os.getpid(), 6) if number == 2 else None", "exit status -6"),
    ("writes to standard error", 'err = b"note\\n"', "writes to standard error"),
    ("doesn't end", "time.sleep(60) if number == 5 else None", "takes too long"),
    ("walk entries always 0", 'text = b"\\n".join([lines[0].rsplit(b" ", 1)[0] + b" 0"] + lines[1:]) '
     'if text[:2] == b"OK" else text', "another line OK"),
]

# Wrong ways of reading the input: name and expression.
# The first takes what one read gives, the second cuts at the greatest length.
WRONG_READS = [("one read only", "os.read(0, 1 << 20)"),
               ("no more than 65,536 bytes read", "sys.stdin.buffer.read(65536)")]

# An oracle that spoils its answer to images with an odd number of words.
# `%(act)s` sees the list of answers and the images.
ORACLE = '''#!%(python)s -IS
import os, sys
sys.dont_write_bytecode = True
sys.path[:0] = [%(here)r, %(gen)r]
import subprocess
from words import from_stream, to_stream
given = sys.stdin.buffer.read()
images = from_stream(given)
odd = [len(image) // 4 %% 2 == 1 for image in images]
answers = from_stream(subprocess.run([%(oracle)r] + sys.argv[1:], input=given, stdout=subprocess.PIPE).stdout)
%(act)s
sys.stdout.buffer.write(to_stream(answers))
'''


class Bench:
    """Folder, settings and images of a self-test, and what has failed so far."""

    # Takes the settings of the command line and a fresh folder.
    # Everything below is done with few tries, for the wrappers are slow.
    def __init__(self, settings):
        self.folder = tempfile.mkdtemp(prefix="infer-selftest-")
        self.settings = copy.copy(settings)
        self.settings.quiet, self.settings.jobs, self.settings.seconds = True, 1, 10.0
        self.settings.keep, self.settings.tries = os.path.join(self.folder, "keep"), 200
        os.makedirs(self.settings.keep)
        self.images, self.failed, self.passed = handful(), 0, 0

    # Writes a program into the folder and returns its path.
    # It can be run by its name.
    def program(self, name, text):
        path = os.path.join(self.folder, name.replace(" ", "-").replace(",", "").replace("'", ""))
        with open(path, "w") as out:
            out.write(text)
        os.chmod(path, 0o755)
        return path

    # A wrapper with a line that spoils it, or a way of reading.
    # Without either it is right.
    def wrapper(self, name, spoil="", read=READ_ALL):
        return self.program(name, WRAPPER % {"python": sys.executable, "here": HERE, "read": read,
                                             "spoil": spoil, "oracle": self.settings.oracle})

    # Settings with another program or oracle.
    # The command line's stay.
    def with_program(self, program, oracle=None, seconds=10.0):
        settings = copy.copy(self.settings)
        settings.program, settings.seconds = program, seconds
        settings.oracle = oracle or self.settings.oracle
        return settings

    # Judges the handful with these settings.
    # All groups in one report.
    def judged(self, settings, images=None):
        report = infer.Report()
        for group, items in (images or self.images).items():
            report.join(infer.judge(group, 0, items, settings))
        return report

    # Notes and prints one result.
    # A failure doesn't stop the others.
    def check(self, name, good, detail=""):
        self.passed, self.failed = self.passed + bool(good), self.failed + (not good)
        print("%s %s%s" % ("ok    " if good else "FAILED", name, ": " + detail if detail else ""), flush=True)


# A handful of images of each group: at most two of each refusal, and one of more than 65,536 bytes.
# Enough that every wrong program meets what it does wrong.
def handful():
    out = {}
    for group, size in ((infer.VALID, 40), (infer.TABLE, 200), (infer.MUTATED, 200), (infer.STRINGS, 200)):
        kept, seen = [], {}
        for item in infer.items_of(5, (group, 1, size)):
            sort = plain.refusal(item.data), len(item.data) > 65536
            seen[sort] = seen.get(sort, 0) + 1
            if seen[sort] <= (20 if group == infer.VALID else 2) and len(item.data) < 80000:
                kept.append(item)
        out[group] = kept
    return out


# The right wrapper shows nothing, by this process and by the command line with one job and two.
# The printed counts are the same for both numbers of jobs.
def right_program(bench):
    right = bench.wrapper("right")
    report = bench.judged(bench.with_program(right))
    count = sum(report.counts.values())
    bench.check("the right program, %d images" % count, not report.sorts and not report.slip_count,
                "; ".join(report.sorts) or "no difference")
    texts = []
    for jobs in (1, 2):
        done = command(bench, right, jobs)
        texts.append(re.findall(r"sum \w+|(?m:^(?:valid|table|mutated|strings) .*)", done.stdout))
        bench.check("the right program by the command line, %d jobs: exit status 0" % jobs,
                    done.returncode == 0, done.stdout.strip().split("\n")[-1])
    bench.check("the same images for 1 and 2 jobs", texts[0] == texts[1] and len(texts[0]) > 4, texts[0][-1])


# Runs the comparison by its command line on some images.
# For exit status, output and the folder of differences.
def command(bench, program, jobs, keep=None):
    call = [sys.executable, os.path.join(HERE, "infer.py"), "--valid", "20", "--damaged", "60", "--seed", "3",
            "--jobs", str(jobs), "--program", program, "--oracle", bench.settings.oracle, "--tries", "40"]
    return subprocess.run(call + (["--keep", keep] if keep else []), capture_output=True, text=True)


# Each wrong program is reported, with the sort that belongs to it.
# One that doesn't end only gets the images that it doesn't end on, and little time.
def wrong_programs(bench):
    for name, spoil, sorts in WRONG:
        slow = "sleep" in spoil
        images = {g: [i for i in items if plain.refusal(i.data) == 5][:1] for g, items in bench.images.items()}
        report = bench.judged(bench.with_program(bench.wrapper(name, spoil), None, 1.0 if slow else 10.0),
                              images if slow else None)
        sorts = sorts if isinstance(sorts, tuple) else (sorts,)
        bench.check("a wrong program (%s)" % name, any(sort in report.sorts for sort in sorts),
                    "; ".join("%s (%d)" % pair for pair in sorted(report.sorts.items())) or "NOTHING reported")
    for name, read in WRONG_READS:
        report = bench.judged(bench.with_program(bench.wrapper(name, "", read)))
        bench.check("a wrong program (%s)" % name, report.sorts,
                    "; ".join("%s (%d)" % pair for pair in sorted(report.sorts.items())) or "NOTHING reported")


# By the command line a wrong program gives exit status 1, and the folder has both images and all texts.
# The small image is no larger and still shows the difference.
def kept_files(bench):
    keep = os.path.join(bench.folder, "kept")
    done = command(bench, os.path.join(bench.folder, "3-instead-of-4"), 2, keep)
    names = ["about.txt", "image.bin", "expected.txt", "found.txt", "small.bin", "small-expected.txt",
             "small-found.txt"]
    texts = {}
    for name in names:
        path = os.path.join(keep, "difference-1", name)
        if os.path.exists(path):
            with open(path, "rb") as source:
                texts[name] = source.read()
    good = done.returncode == 1 and len(texts) == len(names)
    image, small = texts.get("image.bin", b""), texts.get("small.bin", b"")
    good = good and (texts["small-expected.txt"], texts["small-found.txt"]) == (b"REFUSED 4\n", b"REFUSED 3\n")
    good = good and len(small) <= len(image) and plain.refusal(small) == 4
    bench.check("exit status 1 and the kept files", good, "%d bytes shrunk to %d" % (len(image), len(small)))


# A program that is wrong only where a function is made: the small image has one candidate, one function.
# It shows that the shrinking takes out what doesn't matter.
def small_image(bench):
    spoil = 'text = text[:-2] + b"0\\n" if not number and b"\\nE 13 " in text else text'
    settings = bench.with_program(bench.wrapper("wrong with functions", spoil))
    settings.tries = 1000
    items = [Item(tag, 0, data) for tag, data in infer.generate.inputs("image", 11, 60)]
    report = infer.judge(infer.VALID, 0, items, settings)
    smalls = infer.shrink_all(report, settings) if report.sorts else {}
    small = min(smalls.values(), key=len, default=b"")
    head = infer.unpack(small[:68]) if len(small) >= 68 else [0] * 17
    bench.check("a rare difference is shrunk", [head[w] for w in (5, 7, 9, 11, 13, 15)] == [1, 0, 0, 1, 1, 1],
                "%d bytes, counts %s" % (len(small), [head[w] for w in (5, 7, 9, 11, 13, 15)]))


# Slips are reported as such and not as differences: PANIC, AMBIGUOUS, a dead oracle, a wrong refusal from it,
# an image of the generator that isn't valid, a stated refusal that the plain model doesn't share.
def slips(bench):
    right = os.path.join(bench.folder, "right")
    acts = [
        ("PANIC", "answers = [b'PANIC why' if o else a for o, a in zip(odd, answers)]"),
        ("AMBIGUOUS", "answers = [b'AMBIGUOUS\\n' if o else a for o, a in zip(odd, answers)]"),
        ("a dead oracle", "sys.exit(1) if any(odd) else None"),
        ("refusal 3 by the oracle", "answers = [b'REFUSED 3\\n' if o else a for o, a in zip(odd, answers)]"),
    ]
    for name, act in acts:
        text = ORACLE % {"python": sys.executable, "here": HERE, "act": act, "oracle": bench.settings.oracle,
                         "gen": os.path.join(infer.ROOT, "tools", "gen")}
        report = bench.judged(bench.with_program(right, bench.program("oracle " + name, text)))
        valid = [i for items in bench.images.values() for i in items if plain.refusal(i.data) == 0]
        odd = sum(1 for i in valid if len(i.data) // 4 % 2)
        bench.check("a slip of the oracle (%s)" % name, report.slip_count == odd > 0 and not report.sorts,
                    "%d slips, %d differences" % (report.slip_count, sum(report.sorts.values())))
    refused = [i for i in bench.images[infer.TABLE] if plain.refusal(i.data) == 4][:1]
    for name, group, stated in (("generator", infer.VALID, 0), ("table", infer.TABLE, 3)):
        images = {group: [Item(i.tag, stated, i.data) for i in refused]}
        report = bench.judged(bench.with_program(right), images)
        bench.check("a slip of the " + name, report.slip_count == 1 and not report.sorts)


# Runs all of it and prints a line for each check; the folder goes if all is well.
# Says whether all was well.
def all_well(settings):
    running.limit_output()
    bench = Bench(settings)
    right_program(bench)
    wrong_programs(bench)
    kept_files(bench)
    small_image(bench)
    slips(bench)
    print("%d passed, %d failed" % (bench.passed, bench.failed))
    if bench.failed:
        print("the programs are in " + bench.folder)
    else:
        shutil.rmtree(bench.folder)
    return not bench.failed
