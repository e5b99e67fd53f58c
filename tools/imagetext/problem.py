"""What can be wrong with a text or with an image, said in one sentence."""


class Problem(Exception):
    """A text that cannot be assembled: the number of the line, and the sentence."""

    # Keeps both parts; the scripts put the name of the file in front.
    # The sentence says what is wrong and what is expected.
    def __init__(self, line, text):
        super().__init__(text)
        self.line, self.text = line, text


class Misfit(Exception):
    """An image whose length, edition, counts or offsets do not fit together."""


# A word of the text as a sentence shows it: quoted, with odd characters escaped, and shortened.
# A word may be as long as the file, and an error is one line.
def quoted(word):
    return ascii(word if len(word) <= 40 else word[:37] + "...")


# Words as a sentence lists them: "a, b or c".
# Every error about a name says which names there are.
def listed(words):
    words = list(words)
    return words[0] if len(words) == 1 else ", ".join(words[:-1]) + " or " + words[-1]
