"""Makes the compiled copy of the given inference file.

Usage: edit.py GIVEN OUT [--no-counter]
Each edit must apply exactly once; otherwise the build stops. No line is added
in the middle of the file, so line numbers stay those of the given file.
"""
import sys

SORT_FROM = "Some(values) => values.iter().copied().collect(),"
SORT_INTO = ("Some(values) => { let mut sorted: Vec<ValueId> = values.iter().copied().collect(); "
             "sorted.sort_by_key(|value| value.0); sorted }")
WALK_FROM = "    if let Some(&func_id) = context.function_values.get(&value_id) {"
WALK_INTO = "    crate::walk::enter(); if let Some(&func_id) = context.function_values.get(&value_id) {"
DRIVER_LINE = "pub(crate) mod driver;\n"


def once(text, old, new, what):
    """Replaces the only occurrence; a build on other sources must not pass silently."""
    count = text.count(old)
    if count != 1:
        sys.exit(f"edit.py: the edit '{what}' applies {count} times, not once")
    return text.replace(old, new)


def edited(text, counter):
    """The compiled text: sorted values, the counter call, the driver's line."""
    text = once(text, SORT_FROM, SORT_INTO, "sorted values_for")
    if counter:
        text = once(text, WALK_FROM, WALK_INTO, "walk counter")
    if "mod driver" in text:
        sys.exit("edit.py: the given file already has a driver module")
    return text + ("" if text.endswith("\n") else "\n") + DRIVER_LINE


def main():
    given, out = sys.argv[1], sys.argv[2]
    with open(given, encoding="utf-8") as file:
        text = file.read()
    with open(out, "w", encoding="utf-8") as file:
        file.write(edited(text, "--no-counter" not in sys.argv[3:]))


if __name__ == "__main__":
    main()
