"""Lists the lemmas that no proof cites: python3 tools/design/unused_laws.py [--remove] [CRATE..]

A lemma is a definition of a file under crates/*/proofs that is no function's proof (proofs/F/Answers.antt and the like) and no
file of computed cases (Cases.antt). Theorems that nothing cites stand in the list too: whoever removes says which are lemmas.
It is in use where a function's proof, a file of specs/, an attribute of the code or a page of the repository names it,
or a lemma that is in use (the lists in docs/PORT.md of all lemmas aside); all others are listed, or removed with --remove (then `rt tidy` drops what they imported).
"""
import pathlib
import re
import sys

TOP = pathlib.Path(__file__).resolve().parents[2]
WORD = re.compile(r"[^\s(){}\[\],;.`]+")
MARKS = {"abbrev", "unfoldable", "pub", "record", "data", "ruleset"}
USE = re.compile(r"^(?:pub )?use Rattle\.(\w+)\.proofs\.([\w.]+)\.\{([^}]*)\}", re.M)


class Law:
    def __init__(self, name):
        self.name, self.lines, self.words = name, [], set()


class File:
    def __init__(self, path):
        self.path = path
        self.text = path.read_text().split("\n")
        self.laws, self.imports, self.modules = {}, {}, []
        for crate, module, names in USE.findall("\n".join(self.text)):
            for name in filter(None, map(str.strip, names.split(","))):
                first, _, other = name.partition(" as ")
                self.imports[(other or first).strip()] = (crate, module, first.strip())
        self.read()

    def read(self):
        stack, comments, last = [], [], None
        for i, line in enumerate(self.text):
            bare = line.strip()
            if not bare or bare.startswith("--"):
                comments = comments + [i] if bare else []
                continue
            indent = len(line) - len(line.lstrip())
            while stack and stack[-1][0] >= indent and bare not in (")", "]", "}"):
                stack.pop()
            if stack and stack[-1][1]:
                stack[-1][1].lines.append(i)
                stack[-1][1].words.update(WORD.findall(line))
            elif re.match(r"(pub )?(use|mod|open|infix[lr]?)\b", bare):
                pass
            elif re.match(r"(pub )?(module|mutual)\b", bare):
                stack.append((indent, None, line))
                self.modules.append((i, indent, comments))
            elif bare.startswith("unfolding ") and last:
                last.lines.append(i)
                last.words.update(WORD.findall(line))
            else:
                words = [word for word in WORD.findall(line) if word not in MARKS]
                name = words[0] if words else last.name
                law = self.laws.setdefault(name, Law(name))
                law.lines += comments + [i]
                law.words.update(WORD.findall(line))
                for _, _, header in stack:
                    law.words.update(WORD.findall(header))
                stack.append((indent, law, line))
                last = law
            comments = []


def files():
    found = {}
    for path in sorted((TOP / "crates").glob("*/proofs/**/*.antt")):
        crate = path.relative_to(TOP / "crates").parts[0]
        module = ".".join(path.relative_to(TOP / "crates" / crate / "proofs").with_suffix("").parts)
        found[(crate, module)] = File(path)
    return found


def is_root(path):
    return path.name in ("Answers.antt", "Invariants.antt", "Proof.antt", "Cases.antt")


def unused(found):
    queue, live = [], set()

    def cite(key, words):
        for word in words:
            if word in found[key].laws:
                queue.append((*key, word))
            if word in found[key].imports:
                queue.append(found[key].imports[word])

    for key, file in found.items():
        if is_root(file.path):
            cite(key, WORD.findall("\n".join(file.text)))
    # a name behind a dot, as `RowLaws.set_cong`, may be any module's
    behind = {name for file in found.values() for name in re.findall(r"\.([^\s(){}\[\],;.`]+)", "\n".join(file.text))}
    for key, file in found.items():
        queue += [(*key, name) for name in file.laws if name in behind]
    for path in list((TOP / "crates").glob("*/specs/**/*.antt")):
        queue += [(c, m, n.strip()) for c, m, ns in USE.findall(path.read_text()) for n in ns.split(",")]
    for path in (TOP / "crates").glob("*/src/**/*.rt"):
        for crate, module, name in re.findall(r"(\w+)::proofs::([\w:]+)::([\w-]+)", path.read_text()):
            crate = path.relative_to(TOP / "crates").parts[0] if crate == "crate" else crate
            queue.append((crate, module.replace("::", "."), name))
    pages = "\n".join(path.read_text() for path in [TOP / "README.md", *(TOP / "docs").glob("*.md")])
    named = set(re.findall(r"`([^`\s]+)`", re.sub(r"^- `\w+`: `Laws/.*", "", pages, flags=re.M)))
    for key, file in found.items():
        queue += [(*key, name) for name in file.laws if name in named]
    while queue:
        law = queue.pop()
        key = law[:2]
        if law in live or key not in found or law[2] not in found[key].laws:
            continue
        live.add(law)
        cite(key, found[key].laws[law[2]].words)
    return {(key, name) for key, file in found.items() if not is_root(file.path) for name in file.laws if (*key, name) not in live}


def remove(file, names):
    gone = {i for name in names for i in file.laws[name].lines}
    if len(names) == len(file.laws):
        file.path.unlink()
        parent = file.path.parent.with_suffix(".antt") if file.path.parent.name != "proofs" else file.path.parent / "Lib.antt"
        parent.write_text(re.sub(rf"^(pub )?mod {file.path.stem}\n", "", parent.read_text(), flags=re.M))
        return
    for i, indent, comments in reversed(file.modules):
        inside = []
        for j in range(i + 1, len(file.text)):
            line = file.text[j]
            if line.strip() and len(line) - len(line.lstrip()) <= indent:
                break
            inside.append(j)
        if all(j in gone or not file.text[j].strip() or file.text[j].strip().startswith("--") for j in inside):
            gone.update([i, *comments, *inside])
    kept = "\n".join(line for i, line in enumerate(file.text) if i not in gone)
    file.path.write_text(re.sub(r"\n{3,}", "\n\n", kept).strip("\n") + "\n")


def main():
    crates = [a for a in sys.argv[1:] if a != "--remove"]
    found = files()
    by_file = {}
    for key, name in sorted(unused(found)):
        if not crates or key[0] in crates:
            by_file.setdefault(key, []).append(name)
    for key, names in by_file.items():
        print(f"{key[0]} {key[1]}: {', '.join(names)}")
        if "--remove" in sys.argv:
            remove(found[key], names)


main()
