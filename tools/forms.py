#!/usr/bin/env python3
"""Counts the places of docs/DESIGN-PASS.md, at the top of a checkout: python3 tools/forms.py [--list]. A loop is counted by hand where a `while` tests a variable that its
body steps by one and sets in no other way; a `while` that is none of these walks by what it read, or down links."""
import glob
import re
import sys

SIGNATURE = re.compile(r"\bfn (\w+)\s*(?:<[^>]*>)?\(([^{;]*?)\)\s*(?:->|\n|requires|ensures|\{)", re.S)
TOGETHER = [
    ("nodes", "heads", "next"), ("cut", "heads", "next"), ("nodes", "n", "count"), ("path", "set"), ("less", "work", "reached"),
    ("cuts", "gates", "added", "memo", "heads", "next", "marks", "own"), ("starts", "inputs", "count"), ("chances", "few", "picks"),
]


def sources():
    for path in sorted(glob.glob("crates/*/src/**/*.rt", recursive=True)):
        yield path, open(path).read()


def matching(pattern):
    for path, text in sources():
        for number, line in enumerate(text.split("\n"), 1):
            if re.search(pattern, line):
                yield f"{path}:{number}: {line.strip()}"


def loops():
    by_hand, others = [], []
    for path, text in sources():
        lines = text.split("\n")
        for k, line in enumerate(lines):
            m = re.match(r"( *)while (.*) \{$", line)
            if not m:
                continue
            end = lines.index(m.group(1) + "}", k)
            body = "\n".join(lines[k + 1:end])
            tested = set(re.findall(r"\b[a-z_]\w*(?:\.\w+)?\b", m.group(2)))
            stepped = [v for v in tested if re.search(r"(?<![\w.])" + re.escape(v) + r" [+-]= 1;", body)]
            set_so = [v for v in tested if re.search(r"(?<![\w.])" + re.escape(v) + r" = ", body)]
            (by_hand if stepped and not set_so else others).append(f"{path}:{k + 1}: {line.strip()}")
    return by_hand, others


def together():
    for path, text in sources():
        for name, parameters in SIGNATURE.findall(text):
            names = re.findall(r"(\w+): ", parameters)
            if any(all(p in names for p in group) for group in TOGETHER):
                yield f"{path}: {name}"


def answers():
    for path in glob.glob("crates/*/proofs/**/*.antt", recursive=True):
        for line in open(path):
            if re.match(r"pub \S+ : goal\.", line):
                yield f"{path}: {line.strip()}"


def lines_of(pattern):
    return sum(len(open(path).read().splitlines()) for path in glob.glob(pattern, recursive=True))


by_hand, others = loops()
ROWS = [
    ("1 enums of our own", list(matching(r"^ *(pub )?enum "))),
    ("1 a number of the list, or a flag, beside values", list(matching(r"^    pub (number: u8|[a-z]+: bool),"))),
    ("1 numbers as answers", list(matching(r"^\) -> u8|^ *(pub )?fn .*-> u8|Result<[^>]*, u8>"))),
    ("3 loops that count by hand", by_hand),
    ("3 other while loops", others),
    ("5 functions whose parameters travel together", list(together())),
    ("8 answers", list(answers())),
]
for name, places in ROWS:
    print(f"{name}: {len(places)}")
    if "--list" in sys.argv and not name.startswith("8"):
        print("\n".join("  " + p for p in places))
print("lines of code, specs, proofs:", lines_of("crates/*/src/**/*.rt"), lines_of("crates/*/specs/**/*.antt"), lines_of("crates/*/proofs/**/*.antt"))
