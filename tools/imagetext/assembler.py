"""Text into image bytes."""

from names import CODE_NAMES, HEADER
from words import pack

from . import candidates, records
from .header import LINES, Header
from .labels import SORTS, Labels
from .lines import lines_of
from .problem import listed, quoted

# Readers of the records that have a line of their own word, in the order of the sections.
READERS = {"identifier": records.identifier, "value": records.value, "pair": records.pair,
           "place": records.place, "function": records.function}


# Gives every identifier, place and function its label before any reference is read.
# So a line may name what stands below it; the words are put back for the second reading.
def label_all(lines):
    labels = Labels()
    for line in lines:
        sort = line.take("a line")
        if sort in SORTS:
            labels.define(line, sort)
        line.at = 0
    return labels


# Reads one line into its section; the header's lines go to the header.
# Records stand in a section in the order of their lines, whatever lies between.
def read_line(line, labels, header, sections):
    first = line.take("a line")
    if first in LINES:
        header.read(line, labels, first)
    elif first in READERS:
        if first in SORTS:
            line.take("a label")
        sections[first].append(READERS[first](line, labels))
    elif first == "candidate":
        sections["candidate"].append(candidates.raw(line))
    elif first in CODE_NAMES:
        sections["candidate"].append(candidates.candidate(line, labels, CODE_NAMES.index(first)))
    else:
        line.fail("%s begins no line; expected %s" % (
            quoted(first), listed(LINES + list(READERS) + ["candidate"] + CODE_NAMES)))


# The words of an image: header, then the sections with their counts and offsets.
# Counts and offsets are never written by hand.
def words_of(head, sections):
    body = []
    for found in sections:
        head = head + [len(found), HEADER + len(body)]
        for words in found:
            body += words
    return head + body


# The image of a text; a Problem if the text is wrong.
# Bytes in and out, so that a text that is no text has its line too.
def assemble(data):
    lines, last = lines_of(data)
    labels, header = label_all(lines), Header()
    sections = {name: [] for name in list(READERS) + ["candidate"]}
    for line in lines:
        read_line(line, labels, header, sections)
    return pack(words_of(header.done(last), sections.values()))
