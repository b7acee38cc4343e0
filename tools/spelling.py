#!/usr/bin/env python3
"""Brings the repository's own definitions and lemmas to the spelling of today's Rattle: python3 tools/spelling.py

Run once, at the top, right after port.py. The names stand in spelling.txt beside this file, the old one and today's a line: functions,
lemmas, fields and constructors of specs/ and proofs/ in snake case, a plain word added with `_`, a dash between two names. Names
from Rattle source, names that Rattle makes and names of the library stay, also where a file brings in one that is spelled alike.
"""
import glob
import os
import re

CHAR = r"[^\s(){}\[\],;.@\"«»`]"
WORD = re.compile(r"(?<!" + CHAR + r")(" + CHAR + r"+)(?!" + CHAR + r")")
BROUGHT_IN = re.compile(r"(?m)^\s*(?:ghost )?(?:pub )?use ([^\s{]+?)\.\{([^}]*)\}")
QUALIFIED = re.compile(r"(?<![.\w])([A-Z]\w*)\.([a-z]" + CHAR + r"*)(?!\.)")


def files():
    for part in ("specs", "proofs"):
        yield from sorted(glob.glob(f"crates/*/{part}/**/*.antt", recursive=True))
    yield from sorted(glob.glob("crates/*/src/**/*.rt", recursive=True))


def fields(texts):
    """The fields of records of specs/ and proofs/."""
    found = set()
    for path, text in texts.items():
        for block in re.finditer(r"(?m)^( *)(?:pub )?record [^\n]*where\s*\n((?:\1 +[^\n]*\n|\s*\n)+)", text):
            for line in re.finditer(r"(?m)^\s+(?:pub )?((?:" + CHAR + r"+ )+): ", block[2]):
                found.update(line[1].split())
    return found


def turned(path, text, names, of_records, own):
    source = path.endswith(".rt")
    foreign = set()
    for m in BROUGHT_IN.finditer(text):
        crate = re.match(r"Rattle\.(\w+)", m[1])
        if not (crate and crate[1] in own):
            foreign.update(x for x in re.split(r"[,\s]+", m[2]) if x in names)

    def one(m):
        a = m[1]
        if a not in names or a in foreign:
            return a
        if m.start() and text[m.start() - 1] == "." and a not in of_records and not re.search(r"[a-z][A-Z]", a):
            return a
        if source and re.fullmatch(r"[a-z_0-9]+", a):
            return a
        return names[a]

    new = WORD.sub(one, text)
    return QUALIFIED.sub(lambda m: m[1] + "." + names[m[2]] if m[2] in names else m[0], new)


def main():
    with open(os.path.join(os.path.dirname(__file__), "spelling.txt")) as table:
        names = dict(line.split() for line in table)
    own = set(os.listdir("crates"))
    texts = {path: open(path).read() for path in files()}
    of_records = fields(texts)
    for path, text in texts.items():
        new = turned(path, text, names, of_records, own)
        if new != text:
            with open(path, "w") as out:
                out.write(new)


if __name__ == "__main__":
    main()
