#!/usr/bin/env bash
# Shows which arms of the Rust recorded lists reach (docs/VECTORS.md, section 4).
# Usage: oracle/coverage.sh LIST... (images.bin, jobs.bin, ops.bin); where the Rust sources are, ORACLE_SRC says, as for build.sh
# The Rust's own coverage needs an LLVM as new as rustc's, so a second build
# with a call in every arm is used: target/oracle/oracle-cover.
set -euo pipefail
here="$(cd "$(dirname "${BASH_SOURCE[0]}")" && pwd)"
out="$here/../target/oracle"
"$here/build.sh" --cover >&2
exec env PYTHONDONTWRITEBYTECODE=1 python3 "$here/cover.py" report "$out/oracle-cover" "$out/arms.txt" "$@"
