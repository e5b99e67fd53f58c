#!/usr/bin/env python3
"""Checks the examples and the text form of job images (tools/imagetext/FORMAT.md).

    python3 tools/examples.py [--check]     everything below, for the gate; needs no oracle
    python3 tools/examples.py --write       writes crates/test_images/data/examples.bin, then checks
    python3 tools/examples.py --oracle      checks, and compares every listing with target/oracle/oracle

Every example is assembled, shown and assembled again; its comment must quote its listing line by line.
Case 1 is held against document 01's words, every form of a line against its words, bad texts against their
errors, the recorded images against their own round trip, and examples.bin against the list (docs/VECTORS.md,
section 4) that the examples make. The status is 1 on any difference.
"""

import os
import re
import subprocess
import sys
import tempfile

sys.dont_write_bytecode = True
HERE = os.path.dirname(os.path.abspath(__file__))
ROOT = os.path.join(HERE, "..")

from imagetext import forms  # noqa: E402
from imagetext.assembler import assemble  # noqa: E402
from imagetext.bad_texts import BASE, bad_texts  # noqa: E402
from imagetext.disassembler import disassemble  # noqa: E402
from imagetext.problem import Misfit, Problem  # noqa: E402

import model  # noqa: E402
import parse  # noqa: E402
from names import MAX_BYTES, MIN_BYTES, NO  # noqa: E402
from words import bytes_as_words, list_bytes, pack, read_list, unpack, words_as_bytes  # noqa: E402

EXAMPLES = os.path.join(ROOT, "examples")
LIST = os.path.join("crates", "test_images", "data", "examples.bin")
ORACLE = os.path.join(ROOT, "target", "oracle", "oracle")
CASE_ONE = "02-assign"

# Case 1 of document 01, word by word: "two plain identifiers, next 1, Create into 0 as Frozen, State;
# Assign 0 to 1; lvalue 1".
CASE_ONE_WORDS = [
    1, 0, 1, 1, 0,                                          # edition, options, next, lvalue, no own function
    2, 17, 0, 25, 0, 25, 2, 25, 0, 35, 2, 35,               # count and offset of the six sections
    0, 0, 0, 0, 0, 0, 0, 0,                                 # two plain identifiers
    0, 0, 0, NO, NO, 1, 0, 0, NO, NO,                       # a place of each, without a span
    9, 0, 0, 1, 1, 0, 0, 0,                                 # Create into place 0: Frozen, State
    8, 0, 1, 0, 0, 0, 0, 0,                                 # Assign place 0 to place 1
]

# "All of its output".
CASE_ONE_LISTING = """OK 2 0
E 9 - 0 1 1 -
E 11 0 1 - - -
V 1 1 2
V 2 1 2
P 0 1
P 1 2
U -
"""

# A line of a listing as a comment quotes it; what explains it follows after two spaces.
QUOTED = re.compile(r"#     ((?:OK|E|V|P|U|REFUSED)(?: (?:[0-9]+|-))+)(?:  .*)?")


class Check:
    """Collects what fails."""

    # Nothing has failed yet.
    # All failures are printed at the end.
    def __init__(self):
        self.failures = []

    # Notes a failure unless something holds.
    # Short name, since every check uses it.
    def hold(self, holds, text):
        if not holds:
            self.failures.append(text)


# A file of the repository as bytes.
# A missing file is an OSError, which the caller reports.
def read(*parts):
    with open(os.path.join(ROOT, *parts), "rb") as source:
        return source.read()


# The names of all examples in order, without their endings.
# A text without a listing, or a listing without a text, is noticed when it is read.
def example_names():
    files = [os.path.splitext(name) for name in os.listdir(EXAMPLES)]
    return sorted({name for name, ending in files if ending in (".job", ".listing")})


# Shows an image and assembles that text; the same bytes must come back.
# A text that the disassembler wrote must never be a wrong one.
def comes_back(check, what, image):
    try:
        again = assemble(disassemble(image).encode("ascii"))
        check.hold(again == image, what + ": other bytes after a round trip")
    except Problem as problem:
        check.hold(False, "%s: shown, line %d: %s" % (what, problem.line, problem.text))
    except Misfit as problem:
        check.hold(False, "%s: %s" % (what, problem))


# One example: text, listing, comment. Returns (image, listing) or None.
# An example is never refused with 1 to 5, since the Rust knows no image.
def check_example(check, name, number):
    check.hold(name.startswith("%02d-" % number), "%s: expected number %02d" % (name, number))
    try:
        text, listing = read("examples", name + ".job"), read("examples", name + ".listing")
        image = assemble(text)
        shown = listing.decode("ascii")
        parse.listing(shown)
    except Problem as problem:
        check.hold(False, "examples/%s.job:%d: %s" % (name, problem.line, problem.text))
        return None
    except (OSError, ValueError, KeyError, IndexError) as problem:
        check.hold(False, "example %s: %s" % (name, problem))
        return None
    comes_back(check, name, image)
    check.hold(model.refusal(image) == 0, "%s: refused with %d" % (name, model.refusal(image)))
    lines = [QUOTED.fullmatch(line) for line in text.decode("utf-8").split("\n")]
    check.hold([line.group(1) for line in lines if line] == shown[:-1].split("\n"),
               name + ": the comment does not quote the listing line by line")
    return image, listing


# The first example of FORMAT.md must be case 1 too.
# It is the first text that a newcomer sees.
def check_format(check):
    try:
        text = read("tools", "imagetext", "FORMAT.md").split(b"```\n")[1]
        check.hold(assemble(text) == pack(CASE_ONE_WORDS), "FORMAT.md: its first example is not case 1")
    except (OSError, IndexError) as problem:
        check.hold(False, "FORMAT.md: %s" % problem)
    except Problem as problem:
        check.hold(False, "FORMAT.md: line %d of its first example: %s" % (problem.line, problem.text))


# All examples in order; returns their images and listings.
# The index must name each of them, in the same order, and nothing else.
def check_examples(check):
    found = example_names()
    made = [check_example(check, name, number) for number, name in enumerate(found, 1)]
    check.hold(len(found) >= 10, "there are %d examples, expected ten or more" % len(found))
    try:
        index = re.findall(r"^\| `(.*)\.job`", read("examples", "README.md").decode("utf-8"), re.M)
        check.hold(index == found, "examples/README.md does not name the examples in order")
    except (OSError, ValueError) as problem:
        check.hold(False, "examples/README.md: %s" % problem)
    if CASE_ONE in found and made[found.index(CASE_ONE)]:
        image, listing = made[found.index(CASE_ONE)]
        check.hold(image == pack(CASE_ONE_WORDS), CASE_ONE + ": not the words of case 1 of document 01")
        check.hold(listing == CASE_ONE_LISTING.encode(), CASE_ONE + ": not the listing of case 1")
    else:
        check.hold(False, CASE_ONE + ": missing")
    return [pair for pair in made if pair]


# Every form of a line must stand for its words and be shown as it is; returns how many forms there are.
# Other ways to write a line must come to the same image.
def check_forms(check):
    text, image = forms.text(), pack(forms.words())
    try:
        check.hold(assemble(text.encode()) == image, "forms: the text comes to other words")
        check.hold(disassemble(image) == text, "forms: the image is shown otherwise:\n" + disassemble(image))
        for other, usual in forms.OTHER_WAYS:
            changed = text.replace(usual + "\n", other + "\n")
            check.hold(changed != text, "forms: %r is not in the text" % usual)
            check.hold(assemble(changed.encode()) == image, "forms: %r comes to other words" % other)
    except Problem as problem:
        check.hold(False, "forms, line %d: %s" % (problem.line, problem.text))
    except Misfit as problem:
        check.hold(False, "forms: %s" % problem)
    return sum(len(section) for section in forms.SECTIONS) + len(forms.HEADER_LINES[0]) + len(forms.OTHER_WAYS)


# Every bad text must earn its line and its sentence; returns how many there are.
# The text that they are made from must be right. Any other exception is a failure too: no text may cause one.
def check_bad_texts(check):
    texts = bad_texts()
    try:
        assemble(BASE)
    except Problem as problem:
        check.hold(False, "the base of the bad texts, line %d: %s" % (problem.line, problem.text))
    for text, line, gist in texts:
        what = "bad text %r, line %d" % (text.split(b"\n")[line - 1][:60], line)
        try:
            assemble(text)
            check.hold(False, what + ": was taken for right")
        except Problem as problem:
            check.hold((problem.line, gist in problem.text) == (line, True),
                       "%s: expected %r, got line %d: %s" % (what, gist, problem.line, problem.text))
            check.hold("\n" not in problem.text and problem.text.isascii() and "; expected " in problem.text,
                       what + ": the sentence has another form")
        except Exception as error:
            check.hold(False, "%s: %r" % (what, error))
    return len(texts)


# Runs a script and compares status, output and the begin of what stands on standard error.
# With a status of 2 nothing may be written.
def check_script(check, script, arguments, given, status, out, error):
    done = subprocess.run([sys.executable, os.path.join(HERE, script)] + arguments, input=given,
                          stdout=subprocess.PIPE, stderr=subprocess.PIPE)
    what = "%s %s" % (script, " ".join(arguments))
    check.hold((done.returncode, done.stdout) == (status, out), what + ": status or output")
    check.hold(done.stderr.startswith(error) and done.stderr.count(b"\n") == (1 if error else 0),
               "%s: standard error is %r" % (what, done.stderr[:200]))


# Both scripts, by file and by standard input, with right and wrong input.
# The functions are tested above; here only what the command line adds.
def check_scripts(check):
    image = pack(CASE_ONE_WORDS)
    with tempfile.TemporaryDirectory() as folder:
        text, bad, out = (os.path.join(folder, name) for name in ("a.job", "bad.job", "out"))
        for path, data in ((text, disassemble(image).encode()), (bad, BASE + b"value 1 Frosen State\n")):
            with open(path, "wb") as target:
                target.write(data)
        check_script(check, "assemble.py", [text], b"", 0, image, b"")
        check_script(check, "assemble.py", [bad, "-o", out], b"", 2, b"", bad.encode() + b":9: 'Frosen' is no k")
        check_script(check, "assemble.py", [], b"next 1", 2, b"", b"standard input:1: the text has no line `lval")
        check_script(check, "assemble.py", [os.path.join(folder, "none")], b"", 2, b"", folder.encode())
        check.hold(not os.path.exists(out), "assemble.py: a file was written in spite of an error")
        check_script(check, "disassemble.py", ["-o", out], image, 0, b"", b"")
        with open(out, "rb") as source:
            check.hold(assemble(source.read()) == image, "disassemble.py: other text")
        check_script(check, "disassemble.py", [], image + b"\0\0\0\0", 2, b"",
                     b"standard input: the candidates end at word 51, and the image ends at word 52")
        check_script(check, "disassemble.py", [], b"\0" * 70000, 2, b"", b"standard input: the image has more")


# Whether length, edition, counts and offsets of an image fit, by the generator's own reader.
# So the disassembler does not judge by itself which images it has to show.
def fits(image):
    try:
        words = unpack(image) if MIN_BYTES <= len(image) <= MAX_BYTES and len(image) % 4 == 0 else [0]
        return words[0] == 1 and bool(parse.image(words))
    except ValueError:
        return False


# Round trips of a recorded list; returns how many images came back and how many do not fit.
# What does not fit must be recorded as refused with 1 or 2.
def check_recorded(check, name):
    fit, misfit = 0, 0
    try:
        records = read_list(read("vectors", name))
    except (OSError, ValueError, IndexError) as problem:
        check.hold(False, "vectors/%s: %s" % (name, problem))
        return 0, 0
    for number, (given, answer) in enumerate(records):
        image, what = words_as_bytes(given), "%s, record %d" % (name, number)
        if fits(image):
            fit += 1
            comes_back(check, what, image)
            continue
        misfit += 1
        try:
            disassemble(image)
            check.hold(False, what + ": shown, and does not fit")
        except Misfit as problem:
            refused = parse.listing(words_as_bytes(answer).decode("ascii"))["refused"]
            check.hold(refused in (1, 2), "%s: refused with %d, does not fit: %s" % (what, refused, problem))
    return fit, misfit


# The recorded list of the examples.
# As vectors/images.bin: images and listings are byte strings.
def as_list(made):
    return list_bytes([(bytes_as_words(image), bytes_as_words(listing)) for image, listing in made])


# Compares examples.bin with what the examples make.
# The program that replays it has no Python, so the file must be the current one.
def check_list(check, made):
    try:
        check.hold(read(LIST) == as_list(made), "%s is not what the examples make; see --write" % LIST)
    except OSError:
        check.hold(False, "%s is missing; see --write" % LIST)


# Writes examples.bin, with its folder if that is missing.
# Only where the examples themselves are right.
def write_list(made):
    path = os.path.join(ROOT, LIST)
    os.makedirs(os.path.dirname(path), exist_ok=True)
    with open(path, "wb") as out:
        out.write(as_list(made))


# Compares every listing with the Rust's answer.
# One process an image, as the oracle wants it.
def check_oracle(check, made):
    for image, listing in made:
        try:
            done = subprocess.run([ORACLE, "--image"], input=image, stdout=subprocess.PIPE, check=True)
        except (OSError, subprocess.CalledProcessError) as problem:
            check.hold(False, "the oracle: %s; see oracle/build.sh" % problem)
            return
        check.hold(done.stdout == listing, "the oracle says %r, a listing %r" % (done.stdout, listing))


# Does what the option says and prints one line.
# The exit status is for the gate.
def main():
    options = sys.argv[1:] or ["--check"]
    if options not in (["--check"], ["--write"], ["--oracle"]):
        sys.exit(__doc__)
    check = Check()
    made = check_examples(check)
    if options == ["--write"] and not check.failures:
        write_list(made)
    check_format(check)
    lines = check_forms(check)
    bad = check_bad_texts(check)
    check_scripts(check)
    images, none = check_recorded(check, "images.bin")
    damaged, misfit = check_recorded(check, "damaged.bin")
    check.hold(none == 0, "%d images of images.bin do not fit" % none)
    check_list(check, made)
    if options == ["--oracle"]:
        check_oracle(check, made)
    for text in check.failures[:50]:
        print("FAIL " + text)
    print("examples: %d examples, %d forms of lines, %d bad texts, round trips of %d recorded and %d damaged "
          "images (%d do not fit), %d failed" % (
              len(made), lines, bad, images, damaged, misfit, len(check.failures)))
    sys.exit(1 if check.failures else 0)


if __name__ == "__main__":
    main()
