#!/usr/bin/env python3
"""Brings the repository's own definitions and lemmas to the spelling of today's Rattle: words in snake case.

usage: python3 tools/respell.py [FOLDER]    once, right after the kit's port.py, in a tree of the older spelling

It renames the names that specs/ and proofs/ define, wherever they are cited, and in proofs the names that Rattle makes
of the names of functions and variables. Names of src/, strings and comments stay as they are. It stops, and writes
nothing, where two names would fall together.
"""
import os
import re
import sys

ROOT = os.path.join(sys.argv[1] if len(sys.argv) > 1 else ".", "crates")
DASHED = r"[A-Za-z][\w']*(?:-[\w']+)+"
WORD = r"[A-Za-z_][\w']*(?:[-+][\w'-]+)*"
CHAIN = WORD + r"(?:\.[\w][\w'+-]*)*|\)(?:\." + WORD + ")+"

# Names that the plain rule would make fall together with a name of the library, and facts, which are spelled as types.
SPECIAL = {
    "bit-and": "bit_of_and",
    "bit-or": "bit_of_or",
    "Number-of": "NumberOf",
    "Token-of": "TokenOf",
    "Not-three": "NotThree",
}
# Variables and local names of proofs.
LOCAL = set(
    "asks-k count-in count-out idle-k known-a known-b known-r known-t known-u lower-with-low not-clear of-x of-y of-z "
    "open-k open-rest over-now quiet-c row-own row-start short-line still-c with-cores yes-same".split()
)
# Words in the names that Rattle makes.
MADE = [
    (r"\bin-default\b", "in_default"),
    (r"\bin-(err|ok)-", r"in_\1-"),
    (r"\boverflow-(add|sub|mul|cast|shl|shr|step)-", r"overflow_\1-"),
    (r"\binvariant-of-", "invariant_of-"),
    (r"\bslice-bounds-", "slice_bounds-"),
]
# Functions of the library that the code calls.
CALLED = "is_some is_none is_ok is_err as_slice from_residual"


def files(end):
    for folder, dirs, names in os.walk(ROOT):
        dirs[:] = sorted(d for d in dirs if d != "out")
        yield from (os.path.join(folder, n) for n in sorted(names) if n.endswith(end))


def read(path):
    with open(path, encoding="utf-8") as f:
        return f.read()


def heads():
    """The dashed names that specs/ and proofs/ define, and those of them that are fields or constructors."""
    names, parts = set(), set()
    top = re.compile(r"^(?:(?:abbrev|unfoldable|pub|data|record)\s+)*(" + DASHED + r")\s*:(?!.*\bgoal\.\1(?![\w'-]))")
    part = re.compile(r"^\s+(?:pub\s+)?(" + DASHED + r")\s*:\s")
    for path in files(".antt"):
        for line in read(path).splitlines():
            for form in (top, part):
                m = form.match(line)
                if m:
                    names.add(m.group(1))
                    if form is part:
                        parts.add(m.group(1))
    return names, parts


def rust_names():
    names = set(CALLED.split())
    for path in files(".rt"):
        names.update(re.findall(r"\b[a-z][a-z0-9]*(?:_[a-z0-9]+)+\b", re.sub(r"//[^\n]*", "", read(path))))
    return names


def plain(name):
    return SPECIAL.get(name, name.replace("-", "_"))


def main():
    own, parts = heads()
    own |= LOCAL
    rust = rust_names()
    words = {w for path in files(".antt") for w in re.findall(WORD, read(path))}
    new = [plain(n) for n in sorted(own)]
    bad = sorted({n for n in new if new.count(n) > 1 or (n in words and n not in rust)})
    if bad:
        print("these fall together with other names: " + ", ".join(bad))
        return 1

    def made(word):
        for old, to in MADE:
            word = re.sub(old, to, word)
        for name in sorted(rust, key=len, reverse=True):
            old = name.replace("_", "-")
            if old in word:
                word = re.sub(r"(?<![A-Za-z0-9_])" + re.escape(old) + r"(?![A-Za-z0-9_])", name, word)
        return word

    def turn(code, proof):
        def chain(m):
            first, *rest = m.group(0).split(".")
            done = [turn_word(first, False)]
            done += [turn_word(w, first[:1].islower() or first == ")") if first != "goal" else made(w) for w in rest]
            return ".".join(done)

        def turn_word(word, field):
            if "-" not in word:
                return word
            if word in own and (not field or word in parts):
                return plain(word)
            return made(word) if proof else word

        return re.sub(CHAIN, chain, code)

    def turn_line(line, antt, proof):
        if line.lstrip().startswith("--" if antt else "//") or (not antt and '"' in line):
            return line
        code, mark, note = line.partition(" -- ") if antt else (line, "", "")
        return turn(code, proof) + mark + note

    for end in (".antt", ".rt"):
        for path in files(end):
            text = read(path)
            proof = f"{os.sep}proofs{os.sep}" in path
            done = "\n".join(turn_line(line, end == ".antt", proof) for line in text.split("\n"))
            if done != text:
                with open(path, "w", encoding="utf-8") as f:
                    f.write(done)
    return 0


if __name__ == "__main__":
    raise SystemExit(main())
