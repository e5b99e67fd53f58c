"""The lines of a text: bytes into words, with the number of each line."""

import re

from .problem import Problem, quoted

WORD = re.compile(r"[^ \t]+")


class Line:
    """A line with its number, and the words of it that are not taken yet."""

    # Starts at the first word.
    # A line without words is never made.
    def __init__(self, number, words):
        self.number, self.words, self.at = number, words, 0

    # Ends the reading with a sentence about this line.
    # Every error of a line goes through here, so that each has its number.
    def fail(self, text):
        raise Problem(self.number, text)

    # The next word without taking it, "" at the end of the line.
    # What is optional on a line is found by looking first.
    def peek(self):
        return self.words[self.at] if self.at < len(self.words) else ""

    # The next word; `what` says what it should be if there is none.
    # A missing word is the commonest slip, so the sentence names the word before it.
    def take(self, what):
        word = self.peek()
        if not word:
            self.fail("a word is missing after %s; expected %s" % (quoted(self.words[-1]), what))
        self.at += 1
        return word

    # Takes the next word if it is this one, and says whether it was.
    # For the words that mark an optional part.
    def skip(self, word):
        found = self.peek() == word
        self.at += found
        return found

    # Takes this very word; `what` says why it stands there.
    # For the words that mark a part that must be there.
    def expect(self, word, what):
        found = self.take("`%s` and %s" % (word, what))
        if found != word:
            self.fail("%s stands in place of `%s`; expected `%s` and %s" % (quoted(found), word, word, what))

    # All words must be taken; `expected` says what else could have stood here.
    # A word too many is never passed over.
    def end(self, expected):
        if self.peek():
            self.fail("%s is not understood here; expected %s" % (quoted(self.peek()), expected))


# The line number at a byte position.
# Lines end with a newline byte, in whatever text.
def line_at(data, position):
    return data.count(b"\n", 0, position) + 1


# The bytes as text; a byte or character that no text has is a problem of its line.
# So an image that is given by mistake is told apart from a text. A byte order mark at the front is let go.
def decoded(data):
    try:
        text = data.decode("utf-8")
    except UnicodeDecodeError as error:
        what = "byte %02X is not UTF-8; expected a text" % data[error.start]
        raise Problem(line_at(data, error.start), what) from None
    for number, line in enumerate(text.split("\n"), 1):
        odd = re.search("[\x00-\x08\x0b-\x1f\x7f]", line[:-1] if line.endswith("\r") else line)
        if odd:
            code = ord(odd.group())
            raise Problem(number, "a control character, code %d, is in this line; expected a text" % code)
    return text.removeprefix("\ufeff")


# All lines that have words, and the number of the last line.
# `#` begins a comment wherever it stands, since no word holds one.
def lines_of(data):
    found, number = [], 1
    for number, line in enumerate(decoded(data).split("\n"), 1):
        words = WORD.findall(line.rstrip("\r").split("#")[0])
        if words:
            found.append(Line(number, words))
    return found, max(1, number - (data.endswith(b"\n")))
