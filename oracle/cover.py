"""Which arms of the Rust a list of inputs reaches.

cover.py instrument TREE ARMS        puts a call into every arm of the ported functions
cover.py report ORACLE ARMS LIST...  runs recorded lists (docs/VECTORS.md, 4) and prints the table

An arm is a function's entry, a branch of an `if` (also the one that isn't
written), an arm of a `match`, a loop's body or a closure's body. The arm of
Apply and arms that say `unreachable!` are left out. No line is moved, so the
numbers are those of the given files.
"""
import os
import re
import struct
import subprocess
import sys
import tempfile

INFERENCE = "react_compiler_inference/infer_mutation_aliasing_effects.rs"
ENVIRONMENT = "react_compiler_hir/environment.rs"
# Only the set-up calls `empty`; the closure is the oracle's own sort.
LEFT_OUT, OWN_CLOSURE = ["empty"], "sort_by_key"
# File, impl blocks whose functions are all taken, free or single functions taken.
TARGETS = [
    (INFERENCE, ["ReasonSet", "InferenceState", "Context"],
     ["is_superset", "contributes_new_value", "effect_key", "merge_abstract_values",
      "merge_value_kinds", "apply_signature", "freeze_function_captures_transitive", "apply_effect",
      "primary_reason", "get_write_error_reason", "is_ref_or_ref_value_for_id", "from_identifier"]),
    (ENVIRONMENT, [], ["intern_aliasing_diagnostic"]),
]
TOKEN = re.compile(
    r"//[^\n]*|/\*.*?\*/|\"(?:\\.|[^\"\\])*\"|'(?:\\.|[^'\\])'|'[A-Za-z_]\w*|\w+"
    r"|=>|==|!=|<=|>=|->|::|&&|\|\||\.\.=|\.\.|\+=|\|=|\S", re.S)
OPEN, CLOSE = "([{", ")]}"


class Source:
    """A file as tokens, with the insertions to make."""

    def __init__(self, text):
        self.text = text
        found = [m for m in TOKEN.finditer(text) if not m.group().startswith(("//", "/*"))]
        self.tokens = [m.group() for m in found]
        self.starts = [m.start() for m in found]
        self.ends = [m.end() for m in found]
        self.partner = self.pairs()
        self.inserts, self.arms, self.skipped, self.guards = [], [], set(), set()

    def pairs(self):
        """The closing token of each opening one."""
        partner, stack = {}, []
        for index, token in enumerate(self.tokens):
            if token in OPEN:
                stack.append(index)
            elif token in CLOSE:
                partner[stack.pop()] = index
        return partner

    def line(self, index):
        """The line number of a token."""
        return self.text.count("\n", 0, self.starts[index]) + 1

    def label(self, index):
        """The line's own text, cut short."""
        end = self.text.find("\n", self.starts[index])
        return self.text[self.starts[index]:end].strip()[:60]

    def find(self, index, wanted, stop=()):
        """The next wanted token outside brackets."""
        while self.tokens[index] not in wanted:
            if self.tokens[index] in stop:
                return None
            index = self.partner[index] + 1 if self.tokens[index] in OPEN else index + 1
        return index

    def arm(self, index, note=""):
        """A new arm; gives the call to insert."""
        self.arms.append((self.line(index), (note + " " if note else "") + self.label(index)))
        return f"crate::cover::hit(ARM{len(self.arms) - 1});"

    def into_block(self, brace, index, note=""):
        """The call as the first statement of a block."""
        self.inserts.append((self.ends[brace], 1, " " + self.arm(index, note)))

    def wrap(self, first, after, index, note=""):
        """The call before an expression that is no block."""
        self.inserts.append((self.starts[first], 1, "{ " + self.arm(index, note) + " "))
        self.inserts.append((self.ends[after - 1], 0, " }"))

    def block_of(self, index):
        """The block of an `if`, `for` or `while`: patterns after `let` may hold braces."""
        while True:
            index = self.find(index, ["{", "let"])
            if self.tokens[index] == "{":
                return index
            index = self.find(index, ["="])

    def branch(self, index):
        """An `if`: its block, its `else`, or the branch that isn't written."""
        brace = self.block_of(index + 1)
        self.into_block(brace, index)
        after = self.partner[brace] + 1
        if self.tokens[after] != "else":
            call = self.arm(index, "not:")
            self.inserts.append((self.ends[after - 1], 1, " else { " + call + " }"))
        elif self.tokens[after + 1] == "{":
            self.into_block(after + 1, index, "else of:")

    def choice(self, index):
        """A `match`: each arm but Apply's and the unreachable ones."""
        brace = self.find(index + 1, ["{"])
        end, at = self.partner[brace], brace + 1
        while at < end:
            arrow = self.find(at, ["=>"])
            body = arrow + 1
            self.guards.update(i for i in range(at, arrow) if self.tokens[i] == "if")
            if self.tokens[body] == "{":
                after = self.partner[body] + 1
            else:
                after = self.find(body, [",", "}"]) if self.has_comma(body, end) else end
            self.one_choice(at, arrow, body, after)
            at = after + 1 if after < end and self.tokens[after] == "," else after

    def has_comma(self, body, end):
        """Whether an arm without a block ends in a comma."""
        index = body
        while index < end:
            if self.tokens[index] == ",":
                return True
            index = self.partner[index] + 1 if self.tokens[index] in OPEN else index + 1
        return False

    def one_choice(self, at, arrow, body, after):
        """One arm of a match."""
        pattern = self.tokens[at:arrow]
        if "AliasingEffect" in pattern and "Apply" in pattern:
            self.skipped.update(range(at, after))
        elif self.tokens[body] == "unreachable":
            pass
        elif self.tokens[body] == "{":
            self.into_block(body, at)
        else:
            self.wrap(body, after, at)

    def closure(self, index):
        """A closure: its block or its expression."""
        bar = index if self.tokens[index] == "||" else self.find(index + 1, ["|"])
        body = bar + 1
        if self.tokens[body] == "{":
            self.into_block(body, index, "closure:")
        elif self.tokens[body] != "match":
            after = body
            while self.tokens[after] not in (",", ")"):
                after = self.partner[after] + 1 if self.tokens[after] in OPEN else after + 1
            self.wrap(body, after, index, "closure:")

    def function(self, index):
        """All arms of the function whose `fn` stands at `index`."""
        brace = self.find(index, ["{"])
        self.into_block(brace, index)
        for at in range(brace + 1, self.partner[brace]):
            token, before = self.tokens[at], self.tokens[at - 1]
            if at in self.skipped or at in self.guards:
                continue
            if token == "if":
                self.branch(at)
            elif token == "match":
                self.choice(at)
            elif token in ("for", "while"):
                self.into_block(self.block_of(at + 1), at)
            elif token in ("|", "||") and before in ("(", ",", "=", "move"):
                if self.tokens[at - 2] != OWN_CLOSURE:
                    self.closure(at)

    def functions(self, impls, names):
        """The `fn` tokens that are asked for."""
        inside = set()
        for index, token in enumerate(self.tokens):
            if token == "impl" and self.tokens[index - 1] in ("}", ";", "]"):
                brace = self.find(index, ["{"])
                if any(name in self.tokens[index:brace] for name in impls):
                    inside.update(range(brace, self.partner[brace]))
        return [i for i, token in enumerate(self.tokens)
                if token == "fn" and self.tokens[i + 1] not in LEFT_OUT
                and (i in inside or self.tokens[i + 1] in names)]

    def instrumented(self, first_arm):
        """The text with all calls in it."""
        text = self.text
        for position, _, piece in sorted(self.inserts, key=lambda i: (i[0], i[1]), reverse=True):
            text = text[:position] + piece + text[position:]
        return re.sub(r"\bARM(\d+)\b", lambda m: str(first_arm + int(m.group(1))), text)


def instrument(tree, arms_path):
    """Puts the calls into the tree and writes the list of arms."""
    arms = []
    for file, impls, names in TARGETS:
        path = os.path.join(tree, file)
        with open(path, encoding="utf-8") as handle:
            source = Source(handle.read())
        for index in source.functions(impls, names):
            source.function(index)
        with open(path, "w", encoding="utf-8") as handle:
            handle.write(source.instrumented(len(arms)))
        arms += [(os.path.basename(file), line, label) for line, label in source.arms]
    with open(arms_path, "w", encoding="utf-8") as handle:
        handle.writelines(f"{file}\t{line}\t{label}\n" for file, line, label in arms)


def records(path):
    """The records of a recorded list: input words and answer words."""
    with open(path, "rb") as handle:
        data = handle.read()
    words, at = struct.unpack(f"<{len(data) // 4}I", data), 1
    for _ in range(words[0]):
        parts = []
        for _ in range(2):
            parts.append(words[at + 1:at + 1 + words[at]])
            at += 1 + words[at]
        yield parts


def as_bytes(words, kind):
    """The bytes of an input or answer; those of images carry their length."""
    data = struct.pack(f"<{len(words)}I", *words)
    return data[4:4 + words[0]] if kind == "image" else data


def read_list(path):
    """Kind, inputs and recorded answers; images that never reach the Rust are left out."""
    pairs = list(records(path))
    kind = {1: "job", 2: "op"}.get(pairs[0][0][0], "image") if pairs else "image"
    pairs = [(as_bytes(one, kind), as_bytes(other, kind)) for one, other in pairs]
    if kind == "image":
        pairs = [p for p in pairs if not re.match(rb"REFUSED [1-5]\n", p[1])]
    return kind, pairs


def run_list(oracle, path, totals):
    """Runs one list, adds to the totals, and compares with the recorded answers."""
    kind, pairs = read_list(path)
    stream = b"".join(struct.pack("<I", len(data)) + data for data, _ in pairs)
    with tempfile.NamedTemporaryFile() as counts:
        environment = dict(os.environ, ORACLE_COVER=counts.name)
        done = subprocess.run([oracle, "--batch", kind], input=stream, stdout=subprocess.PIPE,
                              env=environment, check=True)
        for line in counts.read().decode().splitlines():
            arm, number = map(int, line.split())
            totals[arm] += number
    wanted = b"".join(struct.pack("<I", len(answer)) + answer for _, answer in pairs)
    same = "all answers as recorded" if done.stdout == wanted else "ANSWERS DIFFER FROM THE RECORDED ONES"
    print(f"{os.path.basename(path)}: {len(pairs)} inputs ({kind}), {same}")


def report(oracle, arms_path, lists):
    """The table: inputs that reach each arm, its line, its text."""
    with open(arms_path, encoding="utf-8") as handle:
        arms = [line.rstrip("\n").split("\t") for line in handle]
    totals = [0] * len(arms)
    for path in lists:
        run_list(oracle, path, totals)
    rows = sorted(zip(arms, totals), key=lambda row: (row[0][0], int(row[0][1])))
    for (file, line, label), total in rows:
        short = "env" if file == "environment.rs" else "inf"
        print(f"{total:>9}  {short} {line:>5}  {label}")
    missing = [(file, line, label) for (file, line, label), total in rows if total == 0]
    print(f"{len(arms) - len(missing)} of {len(arms)} arms reached")
    for file, line, label in missing:
        print(f"not reached: {file} {line}: {label}")


if __name__ == "__main__":
    if sys.argv[1] == "instrument":
        instrument(sys.argv[2], sys.argv[3])
    else:
        report(sys.argv[2], sys.argv[3], sys.argv[4:])
