#!/usr/bin/env python3
"""Makes the list of images for the limit of 2,048 keys, and looks for the cases and refusals of document 01 in the lists.

    python3 tools/case_images.py            the same as --check
    python3 tools/case_images.py --check    compares crates/test_images/data with what belongs there; status 1 if
                                            something differs, or if a case or a refusal is in none of its lists
    python3 tools/case_images.py --write    writes cases.bin, and images.bin and damaged.bin as copies of vectors/
    python3 tools/case_images.py --table    prints which records show each case and each refusal
    python3 tools/case_images.py --oracle   compares the listings of cases.bin with the Rust's (after oracle/build.sh)

The answers in cases.bin are worked out here from document 01. Formats: docs/VECTORS.md, part 4.
"""

import os
import subprocess
import sys

sys.dont_write_bytecode = True
HERE = os.path.dirname(os.path.abspath(__file__))
sys.path.insert(0, os.path.join(HERE, "gen"))

import image_profiles  # noqa: E402
import model  # noqa: E402
import parse  # noqa: E402
from image import Image  # noqa: E402
from names import *  # noqa: E402
from words import bytes_as_words, list_bytes, read_list, unpack, words_as_bytes  # noqa: E402
from world import create, create_function, flow  # noqa: E402

VECTORS = os.path.join(HERE, "..", "vectors")
DATA = os.path.join(HERE, "..", "crates", "test_images", "data")
ORACLE = os.path.join(HERE, "..", "target", "oracle", "oracle")
LISTS = ["images.bin", "damaged.bin", "cases.bin"]

# ---------------------------------------------------------- the limit of 2,048 keys

# A CreateFunction with 16 captures from Frozen places interns 33 keys: its own, and for each capture those of the
# derived Capture and of the ImmutableCapture that the Capture derives. 62 of them intern 2,046, so an image with its
# 64 candidates can pass the limit.
SOURCES, FUNCTIONS = 16, 62


# The image with 62 such candidates, whose two last candidates are still to come; next is given.
# Sources are identifiers 0 to 15 with the values 1 to 16, destinations 16 to 77; 78 is undefined and has a place.
def crowded(next=SOURCES + 1):
    im = Image()
    for i in im.plain(SOURCES):
        im.holds(i, FROZEN)
    im.next = next
    captures = im.run([(i, E_READ) for i in range(SOURCES)])
    im.function()
    for i in im.plain(FUNCTIONS):
        im.add(create_function(im.place(i), 0, captures))
    im.place(im.ident())
    return im


# The place of an identifier of `crowded`.
# Each has one, in the order of their numbers.
def at(identifier):
    return identifier


# The listing of `crowded` where its two last candidates list `more` and define nothing.
# Each CreateFunction is listed with its 16 ImmutableCaptures; its value is Frozen without reasons; place 0 is the lvalue.
def crowded_listing(more):
    numbers = range(SOURCES + FUNCTIONS)
    listed = []
    for i in numbers[SOURCES:]:
        listed.append("E 13 - %d - - 0" % i)
        listed += ["E 11 %d %d - - -" % (source, i) for source in range(SOURCES)]
    lines = ["OK %d 0" % (len(listed) + len(more))] + listed + more
    lines += ["V %d 1 %d" % (i + 1, 1 << R_OTHER if i < SOURCES else 0) for i in numbers]
    lines += ["P %d %d" % (i, i + 1) for i in numbers] + ["U -"]
    return "\n".join(lines) + "\n"


# The listing of a refusal.
# "A refusal prints only `REFUSED n`."
def refused(number):
    return "REFUSED %d\n" % number


# All records: what each shows, its two last candidates, its next number and its listing.
# A Capture from a Frozen place interns two keys, one that is there already none, a Render one, each Create one.
def crowded_records():
    again, undefined = flow(CAPTURE, at(0), at(16)), at(SOURCES + FUNCTIONS)
    two = flow(CAPTURE, at(0), at(1))
    render = lambda place: [RENDER, place] + [0] * 6
    function = lambda place, run=(0, 0): create_function(place, 0, run)
    last = SOURCES + 1
    return [
        ("2,048 keys pass, and a known key after them", [two, again], last,
         crowded_listing(["E 11 0 1 - - -", "E 11 0 16 - - -"])),
        ("the 2,049th key is that of a candidate: 8", [two, render(at(0))], last, refused(8)),
        ("the 2,049th key is that of a derived effect: 8", [render(at(0)), two], last, refused(8)),
        ("8 before 6", [two, create(at(16), MUTABLE, R_OTHER)], last, refused(8)),
        ("6 at 2,048 keys, the key known", [two, function(at(16), (0, SOURCES))], last, refused(6)),
        ("8 before 7", [two, flow(ALIAS, at(0), undefined)], last, refused(8)),
        ("8 before 9", [two, create(undefined, MUTABLE, R_OTHER)], 512 - FUNCTIONS, refused(8)),
        ("9 before 8 of a derived effect", [render(at(0)), function(undefined, (0, 1))], 512 - FUNCTIONS, refused(9)),
    ]


# The records as images and listings.
# An image that is refused with 1 to 5 shows nothing of the keys.
def cases():
    out = []
    for name, candidates, next, listing in crowded_records():
        im = crowded(next)
        im.add(*candidates)
        if model.refusal(im.bytes()):
            sys.exit("case_images: %s: refused with %d" % (name, model.refusal(im.bytes())))
        out.append((name, im.bytes(), listing))
    return out


# What belongs into a list of the crate.
# images.bin and damaged.bin are the recorded ones.
def wanted_bytes(name):
    if name == "cases.bin":
        return list_bytes([(bytes_as_words(image), bytes_as_words(listing.encode())) for _, image, listing in cases()])
    with open(os.path.join(VECTORS, name), "rb") as source:
        return source.read()


# ------------------------------------------------------- which cases the lists show


# All records of the lists that belong into the crate: (list, number, image, listing).
# So the table does not depend on what stands in the folder.
def records():
    out = []
    for name in LISTS:
        for number, (given, answer) in enumerate(read_list(wanted_bytes(name))):
            out.append((name, number, words_as_bytes(given), words_as_bytes(answer).decode("ascii")))
    return out


# Sections of an image, or None where it has no six sections in order.
# A damaged image may have none.
def sections_of(image):
    try:
        return parse.image(unpack(image))[1] if len(image) % 4 == 0 else None
    except (ValueError, IndexError):
        return None


# The cases of document 01 that are one small image each: (case, image, begin of its listing).
# Their images stand in tools/gen/image_profiles.py; what they must answer stands here by hand.
def small_cases():
    begins = ["OK 2 0\nE 9 - 0 1 1 -\nE 11 0 1 - - -\nV 1 1 2\nV 2 1 2\nP 0 1\nP 1 2\nU -\n",
              "OK 1 0\nE 15 0 - - - 0\n", "OK 1 0\nE 14 0 - - - 0\n", "REFUSED 6\n", "REFUSED 7\n",
              "OK 1 0\nE 5 0 1 - - -\n", "OK 1 0\nE 7 0 1 - - -\n", "OK 0 0\n", "OK 0 0\nV 512 0 2048\nP 0 512\nU -\n",
              "OK 1 0\nE 9 - 0 0 11 -\n", "REFUSED 9\n"]
    made = image_profiles.paper_cases()
    return [(tag, im.bytes(), begin) for (tag, im), begin in zip(made, begins, strict=True)]


# What must be found: (what, test of an image and its listing).
# 14 has no image, since it merges states. 18 has none: a link of an image is made by its instruction, whose number no
# set of the image may hold (4), and an instruction never unites sets, so no context holds it beside another value.
# 10 has none either: tables start empty, and an instruction makes at most 32 diagnostics before its candidates and one
# for each of 64.
def wanted():
    found = [(tag, lambda image, text, i=image, b=begin: image == i and text.startswith(b))
             for tag, image, begin in small_cases()]
    size = lambda image: len((sections_of(image) or [()])[-1])
    found.append(("case 16, 64", lambda image, text: size(image) == 64 and text.startswith("OK ")))
    found.append(("case 16, 65", lambda image, text: size(image) == 65 and text == "REFUSED 2\n"))
    for number in (1, 2, 3, 4, 5, 6, 7, 8, 9, 11):
        found.append(("refusal %d" % number, lambda image, text, n=number: text == refused(n)))
    return found


# Where each of them is found: (what, list of (list, number)).
# One pass over all records for each.
def table():
    every = records()
    return [(what, [(name, number) for name, number, image, text in every if test(image, text)])
            for what, test in wanted()]


# ------------------------------------------------------------------------ the options


# Writes the three lists.
# examples.bin is made by tools/examples.py.
def write():
    os.makedirs(DATA, exist_ok=True)
    for name in LISTS:
        with open(os.path.join(DATA, name), "wb") as out:
            out.write(wanted_bytes(name))


# What differs in the folder, and which cases are found nowhere.
# Texts, none where all is well.
def slips():
    out = []
    for name in LISTS:
        path = os.path.join(DATA, name)
        if not os.path.exists(path):
            out.append("crates/test_images/data/%s is missing; see --write" % name)
            continue
        with open(path, "rb") as source:
            if source.read() != wanted_bytes(name):
                out.append("crates/test_images/data/%s is not what belongs there; see --write" % name)
    return out + ["%s: in none of the lists" % what for what, where in table() if not where]


# Which listings of cases.bin the Rust answers otherwise.
# One process an image, as the oracle wants it.
def oracle_slips():
    out = []
    for name, image, listing in cases():
        done = subprocess.run([ORACLE, "--image"], input=image, stdout=subprocess.PIPE, check=True)
        if done.stdout.decode() != listing:
            out.append("%s: the Rust says %r" % (name, done.stdout[:60]))
    return out


# Does what the option says.
# The exit status is for the gate.
def main():
    option = sys.argv[1:] or ["--check"]
    if option not in (["--check"], ["--write"], ["--table"], ["--oracle"]):
        sys.exit(__doc__)
    if option == ["--write"]:
        write()
    if option == ["--table"]:
        for what, where in table():
            shown = ", ".join("%s %d" % spot for spot in where[:3])
            print("%s: %d records: %s" % (what, len(where), shown))
        return
    found = oracle_slips() if option == ["--oracle"] else slips()
    for text in found:
        print("FAIL " + text)
    print("case_images: %d records of cases.bin, %d wanted cases and refusals, %d failed" % (
        len(cases()), len(wanted()), len(found)))
    sys.exit(1 if found else 0)


if __name__ == "__main__":
    main()
