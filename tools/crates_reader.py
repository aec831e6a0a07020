"""Reads the layout of a repository of crates, by names alone: imports and declarations of .antt files, texts of .rt files."""
import collections
import os
import re

USE = re.compile(r"^( *)(pub )?use ([^\s{]+?)(?:\.\{(.*)\}| as (\S+))?\s*$")
DECLARED = re.compile(r"^ *((?:abbrev |pub |opaque |unfoldable )*)((?:data |record |ruleset )?)([A-Za-z_◌«][^\s:]*)")
# What begins as a declaration and is none; the last is a clause of an operator.
NONE = re.compile(r" *((pub )?mod |unfolding |where\b|\w+ [^\w\s:({]+ \w+ = )")
WORD = re.compile(r"[A-Za-z_◌α-ωΑ-Ω⟦«ℕℤ][^\s(){}\[\],;:λ→=≡≤<×⊎∷∙]*")


def indent(line):
    return len(line) - len(line.lstrip())


class Declaration:
    """A lemma, definition, record or data type of a file, from line `start` up to `end`, which isn't its own."""

    def __init__(self, file, start, end, said):
        self.file, self.start, self.end = file, start, end
        self.words, self.kind, self.name = said.group(1), said.group(2).strip(), said.group(3)
        self.text = "\n".join(file.lines[start:end])
        self.depth = indent(file.lines[start])

    def is_lemma(self):
        return not self.kind and not self.words.startswith("abbrev")

    def statement(self):
        """What a lemma states, on one line; none for another declaration."""
        lines = self.text.split("\n")
        found = DECLARED.match(lines[0])
        said = [lines[0][found.end() :].strip()]
        for line in lines[1:]:
            if indent(line) <= self.depth or line.split()[:1] in ([self.name], ["where"], ["unfolding"]):
                break
            said.append(line.strip())
        text, depth = " ".join(said), 0
        for at, letter in enumerate(text):
            depth += (letter in "({[") - (letter in ")}]")
            if letter == ":" and not depth:
                before = text[:at].strip()
                return (f"{before} → " if before else "") + text[at + 1 :].strip()
        return None


class File:
    """A file of specs/ or proofs/ of a crate."""

    def __init__(self, path):
        part = path.split("/")
        self.path, self.crate, self.part = path, part[1], part[2]
        self.module = ".".join(["Rattle", *part[1:]])[: -len(".antt")]
        # Files in folders of proofs/ answer goals of the function that the folder is named by, but for a chapter's, which lists them.
        self.answers = self.part == "proofs" and len(part) > 4 and not os.path.exists("/".join(part[:4]) + ".antt")
        with open(path, encoding="utf-8") as file:
            self.lines = file.read().split("\n")
        self.local, self.passed, self.modules, self.declared = {}, {}, {}, []
        at = 0
        while at < len(self.lines):
            at = self.read(at)

    def read(self, at):
        line = self.lines[at]
        used = USE.match(line)
        if used:
            self.use(*used.groups()[1:])
            return at + 1
        if re.match(r" *module _", line):
            while not self.lines[at].rstrip().endswith("where"):
                at += 1
            return at + 1
        found = DECLARED.match(line)
        if not line.strip() or line.lstrip().startswith("--") or not found or NONE.match(line):
            return at + 1
        end = self.end_of(at, found.group(3))
        self.declared.append(Declaration(self, at, end, found))
        return end

    def use(self, public, path, items, other):
        if items is None:
            self.modules[other or path.split(".")[-1]] = path
            return
        for item in filter(None, (it.strip() for it in items.split(","))):
            whole, _, here = item.partition(" as ")
            below, _, name = whole.strip().rpartition(".")
            self.local[here.strip() or name] = (f"{path}.{below}" if below else path, name)
            if public:
                self.passed[here.strip() or name] = self.local[here.strip() or name]

    def end_of(self, start, name):
        """The line behind a declaration: clauses of its name at the same depth are its own."""
        depth, last, at = indent(self.lines[start]), start, start + 1
        while at < len(self.lines):
            line = self.lines[at]
            if line.strip() and not line.lstrip().startswith("--"):
                own = indent(line) == depth and (line.split()[0] == name or line.strip()[0] in "])}|")
                if indent(line) < depth or (indent(line) == depth and not own):
                    break
                last = at
            at += 1
        return last + 1


class Repository:
    """All files of specs/ and proofs/, and the texts of src/, of the crates below a folder."""

    def __init__(self, root="."):
        os.chdir(root)
        self.files, self.sources = [], {}
        for folder, folders, names in os.walk("crates"):
            folders[:] = sorted(it for it in folders if it not in ("out", "must-fail", "data"))
            for name in sorted(names):
                path = f"{folder}/{name}"
                if name.endswith(".antt") and name != "Lib.antt":
                    self.files.append(File(path))
                elif name.endswith(".rt"):
                    with open(path, encoding="utf-8") as file:
                        self.sources[path] = file.read()
        self.by_module = {it.module: it for it in self.files}
        self.by_name = collections.defaultdict(list)
        for file in self.files:
            for it in file.declared:
                self.by_name[file.module, it.name].append(it)

    def origin(self, module, name):
        """Where a name comes from that modules of the repository pass on."""
        while module in self.by_module and name in self.by_module[module].passed:
            module, name = self.by_module[module].passed[name]
        return module, name

    def resolve(self, module, name):
        """Where a name is declared, if that is in the repository."""
        found = self.origin(module, name)
        return found if found in self.by_name else None

    def cited(self, file, text):
        """The declarations that a text of a file names."""
        found = set()
        for word in WORD.findall(text):
            word = word.rstrip(".")
            head, _, rest = word.partition(".")
            for name in (word, head):
                if (file.module, name) in self.by_name:
                    found.add((file.module, name))
                if name in file.local:
                    found.add(self.resolve(*file.local[name]))
            if rest and head in file.modules:
                found.add(self.resolve(file.modules[head], rest.split(".")[0]))
        return found - {None}
