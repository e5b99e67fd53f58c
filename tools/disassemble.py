#!/usr/bin/env python3
"""Shows a job image in its text form.

    python3 tools/disassemble.py [FILE] [-o OUT]

The text form: tools/imagetext/FORMAT.md. An image whose sections do not fit is answered on standard error
with one sentence; the status is then 2 and nothing is written.
"""

import sys

sys.dont_write_bytecode = True

from imagetext.command import run  # noqa: E402
from imagetext.disassembler import disassemble  # noqa: E402
from names import MAX_BYTES  # noqa: E402


# The text as bytes.
# It has no characters but ASCII.
def text_of(data):
    return disassemble(data).encode("ascii")


if __name__ == "__main__":
    # One byte more than an image may have is enough to see that it is too long.
    sys.exit(run("Shows a job image in its text form (tools/imagetext/FORMAT.md).", text_of, MAX_BYTES + 1))
