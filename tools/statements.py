"""Lists the lemmas whose statements are equal up to the names of their variables, with the reasons of those that stay.

A row is a statement's lemmas by file and name. Called by tools/repeats."""
import collections
import os
import re
import sys

sys.dont_write_bytecode = True
sys.path.insert(0, os.path.dirname(os.path.abspath(__file__)))
from crates_reader import Repository  # noqa: E402
from reasons import reasons_of  # noqa: E402

TOKEN = re.compile(
    r"[A-Za-z_◌α-ωΑ-Ω⟦«ℕℤ][^\s(){}\[\],;:λ→=≡≤<×⊎∷∙&|+\-*≢%/^]*(?:-[^\s(){}\[\],;:λ→=≡≤<×⊎∷∙&|+\-*≢%/^]+)*|[0-9]+|\S"
)


def plain(repository, file, text):
    """A statement with its variables numbered, one binder each, and the names of the repository by where they are declared."""
    variables = set()
    for names in re.findall(r"[({]([^(){}:=]+?) :", text) + re.findall(r"λ ([^.(]+)\.", text):
        variables.update(names.split())
    number, said = {}, []
    own = {it.name for it in file.declared}
    for token in TOKEN.findall(text):
        head, *fields = token.split(".")
        if head in variables:
            said.append(".".join([f"#{number.setdefault(head, len(number))}", *fields]))
        elif token in own:
            said.append(f"{file.module}:{token}")
        elif token in file.local:
            module, name = repository.origin(*file.local[token])
            said.append(f"{module}:{name}" if module.startswith("Rattle.htl_") else name)
        else:
            said.append(token)
    text = " ".join(said)
    each = lambda it: " ".join(f"{it[1]} {name} : {it[3]} {it[4]}" for name in it[2].split())
    text = re.sub(r"(\(|\{) ((?:#\d+ )+): ([^()]*?) (\)|\})", each, text)
    return re.sub(r"([)}]) → ([({])", r"\1 \2", text)


def main():
    repository = Repository(".")
    groups = collections.defaultdict(list)
    for file in repository.files:
        for it in file.declared:
            text = it.statement() if it.is_lemma() and not it.depth and not file.answers else None
            # (what gives no fact is a function, whose type many share)
            if text and any(sign in text for sign in "≡≤<≢⊥"):
                groups[plain(repository, file, text)].append(it)
    reasons, rows, bare = reasons_of("repeats"), 0, 0
    for found in sorted((it for it in groups.values() if len(it) > 1), key=lambda it: (-len(it), it[0].file.path)):
        reason = next(filter(None, (reasons.get((it.file.path, it.name)) for it in found)), None)
        print("  ".join(f"{it.file.path}:{it.name}" for it in found) + f"  {reason or 'NO REASON'}")
        rows += 1
        bare += not reason
    print(f"{rows} statements proved twice, {bare} without a reason")


main()
