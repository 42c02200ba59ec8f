#!/usr/bin/env python3
"""Brings the names of definitions and lemmas to Rattle's spelling: words in snake case, facts and types in upper camel case.

Run once at the port to today's Rattle, after its port.py, at the top of the repository: tools/respell.py [FOLDER]. port.py
respells the names that it knows; this script takes the rest. It goes by text: each word of the proof language in lower camel
case (`leastOn`, `sumTo-next`) that stands in a file of specs/ or proofs/ becomes snake case wherever it stands, in clauses, edits
and documents too. Names of src/, which have no such words, keep their spelling. It refuses to run where two names of one file would
fall together.
"""

import re
import sys
from pathlib import Path

# the unit of current, and words of other languages
KEPT = {"mA", "mAs", "kA"}
# facts that were spelled as words
FACTS = {"atScale": "AtScale", "quantityRated": "IsRated"}
# a lemma that would have its definition's name
LEMMAS = {"each_fed": "each_fed_lem"}
WORD = re.compile(r"(?<![A-Za-z0-9_'])([a-z][a-z0-9]*(?:_[a-z0-9]+)*(?:[A-Z][A-Za-z0-9]*))(?:_[A-Za-z0-9]+)*(?![A-Za-z0-9_])")
DOCUMENTS = ["README.md", "docs/*.md", "docs/changes/*.md", "tests/documents/run", "tests/wrong/*.patch", "tests/edits/*", "include/*.h"]


def snake(word):
    """leastOn: least_on. A capital that is a name by itself (a curve B, a condition D1) stays."""
    parts = re.sub(r"(?<=[a-z0-9])(?=[A-Z])", "_", word).split("_")
    return "_".join(part if re.fullmatch(r"[A-Z]\d*", part) else part[:1].lower() + part[1:] for part in parts)


def code(text):
    """The text of a proof file without its comments."""
    return re.sub(r"(^|\s)--(\s.*)?$", r"\1", text, flags=re.MULTILINE)


def names(files):
    """The words to respell, each with its new spelling."""
    found = {match[1] for file in files for match in WORD.finditer(code(file.read_text()))}
    return {word: FACTS.get(word, snake(word)) for word in sorted(found - KEPT)}


def stands(name, text):
    """Whether the word stands by itself: not behind a dot, as a field or a function's module does, nor as part of a lemma's name."""
    return re.search(rf"(?<![\w.'-]){name}(?![\w'-])", text)


def main():
    home = Path(sys.argv[1] if len(sys.argv) > 1 else ".").resolve()
    proofs = [file for folder in ("specs", "proofs") for file in sorted(home.glob(f"crates/*/{folder}/**/*.antt"))]
    new = names(proofs)
    fall = [
        f"{file.relative_to(home)}: {old} and {name}"
        for file in proofs
        for old, name in new.items()
        if stands(old, text := code(file.read_text())) and stands(name, re.sub("|".join(LEMMAS), " ", text))
    ]
    print("".join(f"fall together: {line}\n" for line in fall), end="")
    if fall or len(set(new.values())) < len(new):
        return 1
    new.update(LEMMAS)
    word = re.compile(r"(?<![A-Za-z0-9_'])(" + "|".join(sorted(map(re.escape, new), key=len, reverse=True)) + r")(?![A-Za-z0-9])")
    files = proofs + [f for pattern in ("crates/*/src/**/*.rt", "crates/*/must-fail/*.edit", *DOCUMENTS) for f in sorted(home.glob(pattern)) if f.is_file()]
    for file in files:
        text = file.read_text()
        spelled = word.sub(lambda match: new[match[1]], text)
        if spelled != text:
            with file.open("w", newline="") as out:
                out.write(spelled)
    print(f"{len(new)} names in {len(files)} files")
    return 0


if __name__ == "__main__":
    sys.exit(main())
