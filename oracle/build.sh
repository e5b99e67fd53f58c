#!/usr/bin/env bash
# Builds the oracle from the six given files and the stand-ins.
# Usage: oracle/build.sh [--no-counter | --cover] [SRC_FOLDER]
# SRC_FOLDER is the folder with the customer's Rust sources, which has src/diagnostics.rs and the five others in it. Without it ORACLE_SRC of
# the environment says which, else it is ../shared/docs/src beside the repository, if that is there.
#   plain         target/oracle/oracle, changes in target/oracle/difference.diff
#   --no-counter  the same without the walk counter (oracle-no-counter)
#   --cover       with a call in every arm, for coverage.sh (oracle-cover)
set -euo pipefail

here="$(cd "$(dirname "${BASH_SOURCE[0]}")" && pwd)"
root="$(cd "$here/.." && pwd)"
form=""
given=""
for arg in "$@"; do
    case "$arg" in
        --no-counter | --cover) form="${arg#-}" ;;
        -*) echo "build.sh: unknown switch $arg" >&2; exit 2 ;;
        *) given="$arg" ;;
    esac
done
given="${given:-${ORACLE_SRC:-}}"
if [ -z "$given" ] && [ -d "$root/../shared/docs/src" ]; then
    given="$root/../shared/docs/src"
fi
if [ -z "$given" ]; then
    echo "build.sh: say where the customer's Rust sources are: oracle/build.sh SRC_FOLDER, or ORACLE_SRC=SRC_FOLDER" >&2
    exit 2
fi
out="$root/target/oracle"
tree="$out/tree$form"

# The six files that are taken whole; only the last one is edited.
whole="diagnostics.rs react_compiler_hir/mod.rs react_compiler_hir/environment.rs
react_compiler_hir/type_config.rs react_compiler_utils/ordered_map.rs"
inference="react_compiler_inference/infer_mutation_aliasing_effects.rs"

for file in $whole $inference; do
    if [ ! -f "$given/src/$file" ]; then
        echo "build.sh: missing given file $given/src/$file" >&2
        exit 1
    fi
done

# A build that fails leaves no older program behind.
rm -f "$out/oracle$form"

# One tree: stand-ins, our root and driver, then the given files.
rm -rf "$tree"
mkdir -p "$tree/${inference%.rs}" "$out/rlib"
cp -r "$here/standins/tree/." "$tree/"
cp "$here/main.rs" "$here/walk.rs" "$here/cover.rs" "$tree/"
cp -r "$here/driver.rs" "$here/driver" "$tree/${inference%.rs}/"
for file in $whole; do
    if [ -e "$tree/$file" ]; then
        echo "build.sh: a stand-in hides the given file $file" >&2
        exit 1
    fi
    cp "$given/src/$file" "$tree/$file"
done
edit_switch=""
[ "$form" != "-no-counter" ] || edit_switch="--no-counter"
python3 "$here/edit.py" "$given/src/$inference" "$tree/$inference" $edit_switch
diff -u --label given --label compiled "$given/src/$inference" "$tree/$inference" \
    > "$out/difference${form#-cover}.diff" || true
[ "$form" != "-cover" ] || python3 "$here/cover.py" instrument "$tree" "$out/arms.txt"

# Stand-in crates, leaves first; each may use those before it.
externs=()
for crate in oxc_span oxc_diagnostics oxc_allocator oxc_str oxc_syntax oxc_ast oxc_index \
    cow_utils rustc_hash smallvec; do
    lib="$out/rlib/lib$crate.rlib"
    rustc --edition 2024 -O --crate-type rlib --crate-name "$crate" \
        -L "$out/rlib" "${externs[@]}" -o "$lib" "$here/standins/crates/$crate.rs"
    externs+=(--extern "$crate=$lib")
done

rustc --edition 2024 -O -C debug-assertions=off -C overflow-checks=off -A warnings \
    --crate-name oracle -L "$out/rlib" "${externs[@]}" -o "$out/oracle$form" "$tree/main.rs"
echo "built ${out#"$root"/}/oracle$form"
