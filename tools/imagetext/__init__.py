"""A text form of job images; FORMAT.md beside this file says how it reads.

The numbers and their names come from tools/gen, so that they stand in one place.
"""

import os
import sys

sys.path.insert(0, os.path.join(os.path.dirname(os.path.abspath(__file__)), "..", "gen"))
