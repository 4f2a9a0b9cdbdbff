#!/usr/bin/env python3
"""Respells the definitions and lemmas of this repository: snake case, no dashes, as PORTING.md, part 3 has it.

usage: python3 tools/respell.py [--check]      at the top, once, after port.py

A name is respelled where an .antt file of specs/, or of proofs/ outside a function's own folder, declares it, and no file of the kit's
libraries is where a file has it from. Types, facts and modules keep their capitals; of a name that begins with one, as `Placed-right`,
only the part behind the dash is a word. In .rt files only clauses, ghost items and `ghost use` lines are read; in pages only what stands
between backticks; in must-fail edits their old and new lines where they speak of an .antt file or a clause. Names that would fall together in one file
are listed and kept as they are.
"""
import collections
import os
import re
import sys

WORD = re.compile(r'[^\s(){}.;,@"«»`]+')
DECL = re.compile(r"^(\s*)((?:(?:pub|abbrev|unfoldable|private|irreducible|data|record|ruleset|syntax)\s+)*)([^\s:(){},;.@\"]+(?:\s+[^\s:(){},;.@\"]+)*)((?:\s+[({][^)}]*[)}])*)\s+:(?:\s|$)")
DERIVED = re.compile(r"deriving\s+\w+\s+as\s+(\S+)")
USE = re.compile(r"^(\s*)(?:pub\s+|ghost\s+)*use\s+([^\s{};]+?)(?:\.\{([^}]*)\})?;?\s*$", re.M)


def own_files():
    for top in sorted(os.listdir("crates")):
        for part in ("specs", "proofs"):
            for folder, dirs, files in os.walk(os.path.join("crates", top, part)):
                dirs.sort()
                for f in sorted(files):
                    if f.endswith(".antt"):
                        yield os.path.join(folder, f)


FUNCTION = re.compile(r"/proofs/(?:[^/]+/)+(Proof|Answers|Invariants)\.antt$")


def respelled(name):
    if name.startswith("«") or "◌" in name:
        return name
    head, tail = "", name
    if name[:1].isupper():
        head, dash, tail = name.partition("-")
        if not dash:
            return name
        head += "-"
    tail = re.sub(r"(?<=[a-z0-9])([A-Z])(?=[a-z])", lambda m: "_" + m[1].lower(), tail)
    tail = re.sub(r"(?<=[a-z0-9])([A-Z])(?![a-zA-Z])", lambda m: "_" + m[1].lower(), tail)
    if not head:
        tail = tail.replace("-", "_") if not tail.startswith("-") else tail
    else:
        tail = tail.replace("-", "_")
    return head + tail


def read(path):
    with open(path, encoding="utf-8", newline="") as f:
        return f.read()


def declared(text):
    found = set()
    for line in text.split("\n"):
        code = line.split(" -- ")[0]
        if code.lstrip().startswith("--"):
            continue
        m = DECL.match(code)
        if m:
            for name in m[3].split():
                found.add(name)
        m = DERIVED.search(code)
        if m:
            found.add(m[1])
    return found


def imported(text):
    """The names that a file has from the kit's libraries."""
    found = set()
    own = {c for c in os.listdir("crates")}
    for m in USE.finditer(text):
        path = m[2].split(".")
        ours = path[0] == "Rattle" and len(path) > 1 and path[1] in own
        if not ours and m[3]:
            for it in m[3].split(","):
                found.update(it.replace(" as ", " ").split())
    return found


def strip_comment(line):
    """Splits a line of antt into code and comment."""
    m = re.search(r"(?<![^\s(){}.;,@\"«»])--", line)
    return (line[: m.start()], line[m.start() :]) if m else (line, "")


def turn_words(text, table, kept):
    def one(m):
        w = m[0]
        if w in table and w not in kept:
            return table[w]
        return w

    return WORD.sub(one, text)


def turn_antt(text, table, kept):
    out = []
    for line in text.split("\n"):
        code, comment = strip_comment(line)
        out.append(turn_words(code, table, kept) + turn_prose(comment, table, kept))
    return "\n".join(out)


def turn_prose(text, table, kept):
    return re.sub(r"`[^`\n]*`", lambda m: turn_words(m[0], table, kept), text)


CLAUSE = re.compile(r"\b(?:requires|ensures|ghost|invariant|decreases)\b\*?[^{;=\n]*\{")


def clause_spans(text):
    """The spans of clauses, ghost items and ghost use lines of an .rt file."""
    spans = []
    for m in re.finditer(r"ghost\s+use\b[^;]*;", text):
        spans.append((m.start(), m.end()))
    for m in CLAUSE.finditer(text):
        line = text.rfind("\n", 0, m.start()) + 1
        if "//" in text[line : m.start()] or "ghost use" in m[0]:
            continue
        depth, i = 1, m.end()
        while depth and i < len(text):
            depth += {"{": 1, "}": -1}.get(text[i], 0)
            i += 1
        spans.append((m.end(), i - 1))
    return sorted(spans)


def turn_rt(text, table, kept):
    out, at = [], 0
    for a, b in clause_spans(text):
        if a < at:
            continue
        out.append(comments(text[at:a], table, kept))
        out.append(turn_words(text[a:b], table, kept))
        at = b
    out.append(comments(text[at:], table, kept))
    return "".join(out)


def comments(text, table, kept):
    return re.sub(r"//[^\n]*", lambda m: turn_prose(m[0], table, kept), text)


def main(argv):
    check = "--check" in argv
    texts = {p: read(p) for p in own_files()}
    names = collections.defaultdict(set)
    for p, t in texts.items():
        if FUNCTION.search(p):
            continue
        for n in declared(t):
            names[n].add(p)
    table = {n: respelled(n) for n in names if respelled(n) != n}
    if len(table) < 1000:
        print("respell: the names have today's spelling: nothing to do")
        return 0
    table.update(OTHER)
    # names that fall together: two spellings of one file that become one
    meet = set()
    rust = {}
    for folder, dirs, files in os.walk("crates"):
        for f in files:
            if f.endswith(".rt"):
                p = os.path.join(folder, f)
                rust[p] = read(p)
    for p, t in {**texts, **rust}.items():
        kept, here = imported(t), {**table, **IN_CRATE.get(p.split("/")[1], {})}
        if p.endswith(".rt"):
            words = {w for a, b in clause_spans(t) for w in WORD.findall(t[a:b])}
        else:
            words = {w for line in t.split("\n") for w in WORD.findall(strip_comment(line)[0])}
        new = collections.defaultdict(set)
        for w in words:
            new[here[w] if w in here and w not in kept else w].add(w)
        for n, ws in new.items():
            if len(ws) > 1 and any(w in here and w not in APART for w in ws):
                print(f"meet: {p}: {', '.join(sorted(ws))} -> {n}")
                meet.update(w for w in ws if w in table and w not in OTHER)
    for w in sorted(meet):
        table.pop(w)
        print("kept:", w)
    print(f"respell: {len(table)} names, {len(meet)} kept since they would meet another")
    if check:
        return 0
    done = 0
    for p, t in {**texts, **rust}.items():
        kept = imported(t)
        here = {**table, **IN_CRATE.get(p.split("/")[1], {})}
        new = turn_antt(t, here, kept) if p.endswith(".antt") else turn_rt(t, here, kept)
        if new != t:
            done += 1
            with open(p, "w", encoding="utf-8", newline="") as f:
                f.write(new)
    for top in ("README.md", "docs", "examples", "tests", "include"):
        for folder, dirs, files in os.walk(top) if os.path.isdir(top) else [(".", [], [top])]:
            for f in files:
                if f.endswith(".md"):
                    p = os.path.join(folder, f)
                    t = read(p)
                    new = turn_prose(t, table, set())
                    if new != t:
                        done += 1
                        with open(p, "w", encoding="utf-8", newline="") as f2:
                            f2.write(new)
    for top in sorted(os.listdir("crates")):
        folder = os.path.join("crates", top, "must-fail")
        if not os.path.isdir(folder):
            continue
        for f in sorted(os.listdir(folder)):
            if f.endswith(".edit"):
                p = os.path.join(folder, f)
                t = read(p)
                here = {**table, **IN_CRATE.get(top, {})}
                out, of = [], ""
                for line in t.split("\n"):
                    if line.startswith("file:"):
                        of = line
                    if line.startswith(("old:", "new:")):
                        if ".antt" in of:
                            line = line[:4] + turn_words(line[4:], here, set())
                        elif CLAUSE.search(line) or "ghost use" in line:
                            line = line[:4] + turn_rt(line[4:], here, set())
                    out.append(line)
                new = "\n".join(out)
                if new != t:
                    done += 1
                    with open(p, "w", encoding="utf-8", newline="") as f2:
                        f2.write(new)
    print(f"respell: {done} files")
    return 0


# Lemmas that would get the name of a definition: they end in `_lem`.
LEMMAS = """
    diagram-of part-of importance-high importance-low same-input any-in distinct-inputs chance-line gate-line event-name gate-name tree-of in-line
    place-in event-in dict-in lines-of line-feed by-line names-of is-event plan-from distinct-codes answer-of codes-of distinct-at some-missing
    is-equation bit-xor bit-and bit-or bytes-by gone-by is-node told-event told-least last-or
""".split()
# Two names that become one and stand apart all the same: fields of two records, or a field and what it speaks of.
APART = """
    few-events fewEvents some-gate someGate few-gates fewGates events-used eventsUsed gates-used gatesUsed cuts-needed cutsNeeded nodes-needed nodesNeeded
    cut-root cut-nodes cutNodes chancesOf eventsOf lay-text allInputs nameIn wideFrom keptBy soundFrom inAll gatesFrom failedFrom someEvent so-far
    all-inputs some-event
""".split()
OTHER = {w: respelled(w) + "_lem" for w in LEMMAS}
OTHER.update({w: respelled(w) for w in APART})
# The same, in one crate alone.
IN_CRATE = {
    "algebra": {"cut-nodes": "cut_nodes_lem"},
    "cuts": {"cut-nodes": "cut_nodes_lem"},
    "forcing": {"cut-nodes": "cut_nodes_lem"},
    "remaining": {"some-event": "some_event_lem"},
    # a tactic's name today
    "analysis": {"ground": "grounds"},
    "importance": {"ground": "grounds"},
    "equations": {"all-inputs": "all_inputs_lem"},
    "scanning": {"name_in": "name_in_lem"},
    "sets": {"so-far": "so_far_lem"},
    "sidebyside": {"kept_by": "kept_by_lem", "wide_from": "wide_from_lem"},
}

if __name__ == "__main__":
    raise SystemExit(main(sys.argv[1:]))
