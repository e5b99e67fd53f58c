#!/usr/bin/env bash
# Runs cases 1 and 10 to 18 of document 01, and some more, through the oracle.
# Usage: oracle/cases.sh (after oracle/build.sh)
set -euo pipefail
here="$(cd "$(dirname "${BASH_SOURCE[0]}")" && pwd)"
exec env PYTHONDONTWRITEBYTECODE=1 python3 "$here/cases/run.py" "$here/../target/oracle/oracle"
