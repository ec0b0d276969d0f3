#!/usr/bin/env python3
"""Lists the places of docs/DESIGN-PASS.md, by point: `python3 tools/forms.py [FOLDER] [POINT]`.

It reads `crates/*/src/*.rt` (and, for point 8, `crates/*/proofs`) below FOLDER, and goes by text: what it lists is a
place to look at, and the page says what became of it.
"""
import re
import sys
from collections import defaultdict
from pathlib import Path

TYPES = r"(?:u8|u16|u32|u64|usize|i32|i64|bool|str)"


def code(line):
    return line.split("//")[0]


class Function:
    def __init__(self, path, at, head, clauses, body):
        self.path, self.at, self.head, self.clauses, self.body = path, at, head, clauses, body
        self.name = re.search(r"\bfn (\w+)", head).group(1)

    def place(self):
        return f"{self.path}:{self.at} {self.name}"

    def parameters(self):
        inside = re.search(r"\bfn \w+(?:<[^(]*>)?\((.*)\)", self.head)
        parts = re.findall(r"(\w+): [^,]+", inside.group(1)) if inside else []
        return [p for p in parts if p != "self"]


def functions(path):
    lines = path.read_text().splitlines()
    found = []
    for n, line in enumerate(lines):
        if not re.search(r"^\s*(pub |pub\(crate\) )?(extern \"C\" )?fn \w+", line):
            continue
        head, m = code(line), n
        while not re.search(r"\)\s*(->.*)?[;{]?\s*$", head.rstrip(",")) and m + 1 < len(lines):
            m += 1
            head += " " + code(lines[m]).strip()
        clauses, body, m = [], [], m + 1
        while m < len(lines) and re.match(r"\s*(ensures|requires|\()", lines[m]):
            clauses.append(lines[m].strip())
            m += 1
        indent = re.match(r"\s*", line).group(0)
        while m < len(lines) and lines[m] != indent + "}":
            if lines[m].strip() != "{":
                body.append(code(lines[m]).strip())
            m += 1
        found.append(Function(path, n + 1, head, clauses, body))
    return found


def sources(root):
    return [p for p in sorted(root.glob("crates/*/src/**/*.rt"))]


def grep(root, pattern):
    for p in sources(root):
        for n, line in enumerate(p.read_text().splitlines()):
            if re.search(pattern, code(line)):
                yield f"{p.relative_to(root)}:{n + 1} {line.strip()[:110]}"


def option_or_result(root):
    """Own enums, errors in an Option, flags beside a value, numbers that stand for a kind."""
    yield from grep(root, r"^(pub )?enum \w+")
    yield from grep(root, r"Option<(Fault|Refusal)>")
    yield from grep(root, r"^\s*(pub )?\w+: bool,|\w+: bool[,)]")
    yield from grep(root, r"fn number\b|-> i32|\bUNREACHED: |4294967295")


def twins(root):
    """Functions whose bodies are alike once names and numbers are blanked."""
    alike = defaultdict(list)
    for p in sources(root):
        if "library_tests" in str(p):
            continue
        for f in functions(p):
            text = " ".join(f.body)
            text = re.sub(r"\b(?!if|else|for|in|match|return|let|mut|true|false|None|Some|Ok|Err)[A-Za-z_]\w*\b", "x", text)
            text = re.sub(r"\b\d+\b", "0", text)
            text = re.sub(r"x(::x)+", "x", re.sub(r"\s+", " ", text))
            text = re.sub(r"[&*]", "", text)
            while re.search(r"x\((?:[x0](?:\.x)*,? ?)+\)|x(?:\.x)+", text):
                text = re.sub(r"x\((?:[x0](?:\.x)*,? ?)+\)|x(?:\.x)+", "x", text)
            if len(text) > 12:
                alike[text].append(f"{f.path.relative_to(root)}:{f.at} {f.name}")
    for places in alike.values():
        if len(places) > 1:
            yield " | ".join(places)


def counted_loops(root):
    """Loops over a range of numbers, over an index, and `while`."""
    yield from grep(root, r"\bfor \w+ in (?!&)[^{]*\.\.|\bwhile\b|\bloop \{|\.enumerate\(\)")


def by_hand(root):
    """Display and conversions written by hand: casts, and matches that only turn an Option or a Result into another value."""
    yield from grep(root, r"^impl.* (Display|Debug|PartialEq|Eq|PartialOrd|Ord|Clone|Copy|From<.*>) for")
    yield from grep(root, rf"\bas {TYPES}\b")
    yield from grep(root, r"^\s*None => |^\s*Err\(\w*\) => ")
    yield from grep(root, r"=> (true|false),")


def repeated_facts(root):
    """Clauses that stand word for word in three or more functions of a crate; parameters that go together in three or more."""
    clauses, groups = defaultdict(set), defaultdict(set)
    for p in sources(root):
        crate = p.relative_to(root).parts[1]
        for f in functions(p):
            for c in f.clauses:
                fact = re.sub(r"^(requires|ensures)( \w+)? ", r"\1 ", c)
                clauses[(crate, fact)].add(f.name)
            names = f.parameters()
            for i in range(len(names)):
                for j in range(i + 1, len(names)):
                    groups[(crate, names[i], names[j])].add(f.name)
    for (crate, fact), where in sorted(clauses.items()):
        if len(where) > 2:
            yield f"{crate}: {fact[:110]} in {len(where)}: {', '.join(sorted(where))}"
    for (crate, a, b), where in sorted(groups.items()):
        if len(where) > 2:
            yield f"{crate}: ({a}, {b}) in {len(where)}: {', '.join(sorted(where))}"


def buffers(root):
    """Fields and results that are arrays, and fields that say a length."""
    yield from grep(root, r"^\s*(pub |pub\(crate\) )?\w+: \[.*; \w+\],|-> \[.*; \w+\]|^\s*(pub |pub\(crate\) )?(len|count): ")


def switches(root):
    """Function pointers, dyn, and flags handed to a function to say what it shall do."""
    yield from grep(root, r"\bfn\(|\bdyn\b|fn \w+\(.*: bool")


def proofs(root):
    """Files of answers and invariants, and files of lemmas, with their lines."""
    for kind in ("Answers.antt", "Invariants.antt"):
        files = sorted(root.glob(f"crates/*/proofs/**/{kind}"))
        yield f"{kind}: {len(files)} files, {sum(len(f.read_text().splitlines()) for f in files)} lines"
    files = [f for f in sorted(root.glob("crates/*/proofs/*.antt"))]
    yield f"lemma files: {len(files)} files, {sum(len(f.read_text().splitlines()) for f in files)} lines"


POINTS = [option_or_result, twins, counted_loops, by_hand, repeated_facts, buffers, switches, proofs]


def main():
    root = Path(sys.argv[1] if len(sys.argv) > 1 else ".").resolve()
    only = int(sys.argv[2]) if len(sys.argv) > 2 else None
    for number, point in enumerate(POINTS, 1):
        if only in (None, number):
            places = list(dict.fromkeys(point(root)))
            print(f"{number}. {point.__doc__} ({len(places)})")
            print("".join(f"    {p}\n" for p in places), end="")


if __name__ == "__main__":
    main()
