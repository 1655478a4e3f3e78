#!/usr/bin/env python3
"""respell: writes the names of definitions and lemmas that tools/spelling.txt lists (old, new) in today's spelling, in the sources, the
specs and the proofs of every crate, and in the papers where they stand as code. Run once, at the top of the repository, after the kit's
own script. A name is a whole word of the text: one that is part of a longer name stays. Names of src/ are not in the list."""
import glob
import re
import sys

WORD = re.compile(r"[^\s(){}\[\],;.«»\"`·<>]+")
CODE = re.compile(r"`[^`\n]+`")
# behind a dot these are steps of a proof, which the check names, and not the lemmas
STEPS = {"sub-bytes", "in-work"}


def table():
    with open("tools/spelling.txt", encoding="utf8") as f:
        return dict(line.split() for line in f)


def respelled(text, names):
    def word(m):
        step = m.group() in STEPS and text[m.start() - 1 : m.start()] == "."
        return m.group() if step else names.get(m.group(), m.group())

    return WORD.sub(word, text)


def main():
    names = table()
    whole = [f for kind in ("rt", "antt") for f in glob.glob(f"crates/**/*.{kind}", recursive=True)]
    papers = ["README.md", "crates/README.md", *glob.glob("docs/**/*.md", recursive=True)]
    for path in whole + papers:
        with open(path, encoding="utf8") as f:
            old = f.read()
        if path in papers:
            new = CODE.sub(lambda m: respelled(m.group(), names), old)
        else:
            new = respelled(old, names)
        if new != old:
            with open(path, "w", encoding="utf8") as f:
                f.write(new)


sys.exit(main())
