"""Words, streams and recorded lists: the byte forms of docs/VECTORS.md."""

import struct


# Turns words into little-endian bytes.
# Every input and answer is made of such words.
def pack(words):
    return struct.pack("<%dI" % len(words), *words)


# Turns bytes (a multiple of four) back into a list of words.
# The answers of the oracle are read with it.
def unpack(data):
    return list(struct.unpack("<%dI" % (len(data) // 4), data))


# Puts inputs into the stream that the oracle reads in batch.
# One stream for many inputs keeps recording quick.
def to_stream(inputs):
    return b"".join(struct.pack("<I", len(data)) + data for data in inputs)


# Takes a stream of [byte length][bytes] apart.
# The oracle answers in this form; a cut stream is an error.
def from_stream(data):
    parts, at = [], 0
    while at < len(data):
        (length,) = struct.unpack_from("<I", data, at)
        if at + 4 + length > len(data):
            raise ValueError("stream cut short at byte %d" % at)
        parts.append(data[at + 4:at + 4 + length])
        at += 4 + length
    return parts


# Byte string as words: its length, then the bytes padded with zeros.
# Images and listings stand so in the lists, since they need not be whole words.
def bytes_as_words(data):
    return [len(data)] + unpack(data + b"\0" * (-len(data) % 4))


# The byte string that `bytes_as_words` packed.
# Refuses padding that is not zero, so a list has only one form.
def words_as_bytes(words):
    data = pack(words[1:])
    if not words or len(data) != (words[0] + 3) // 4 * 4 or any(data[words[0]:]):
        raise ValueError("bad byte string in a list")
    return data[:words[0]]


# Writes a recorded list: count, then each record with its two lengths.
# Records are pairs (input words, answer words).
def list_bytes(records):
    out = [struct.pack("<I", len(records))]
    for given, answer in records:
        out.append(pack([len(given)] + list(given) + [len(answer)] + list(answer)))
    return b"".join(out)


# Reads a recorded list back into pairs of word lists.
# Trailing or missing words are errors, so a damaged file is noticed.
def read_list(data):
    if len(data) % 4:
        raise ValueError("length is no multiple of 4")
    words = unpack(data)
    at, records = 1, []
    for _ in range(words[0]):
        parts = []
        for _ in range(2):
            length = words[at]
            if at + 1 + length > len(words):
                raise ValueError("record passes the end")
            parts.append(words[at + 1:at + 1 + length])
            at += 1 + length
        records.append(tuple(parts))
    if at != len(words):
        raise ValueError("words after the last record")
    return records
