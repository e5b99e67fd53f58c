#!/usr/bin/env python3
"""Makes a job image from its text form.

    python3 tools/assemble.py [FILE] [-o OUT]

The text form: tools/imagetext/FORMAT.md. A text that is wrong is answered on standard error with its file,
its line and one sentence; the status is then 2 and nothing is written.
"""

import sys

sys.dont_write_bytecode = True

from imagetext.assembler import assemble  # noqa: E402
from imagetext.command import run  # noqa: E402

if __name__ == "__main__":
    sys.exit(run("Makes a job image from its text form (tools/imagetext/FORMAT.md).", assemble))
