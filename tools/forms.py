#!/usr/bin/env python3
"""Counts the places of docs/DESIGN-PASS.md in crates/*/src: tools/forms.py [FOLDER] prints a line for each place, and a count for each point."""

import collections
import itertools
import pathlib
import re
import sys

TOP = pathlib.Path(sys.argv[1] if len(sys.argv) > 1 else ".")
WORD = re.compile(r"[A-Za-z_]\w*|\d\w*|==|<=|>=|!=|&&|\|\||->|=>|::|\.\.=|\.\.|[^\s\w]")
KEPT = {"if", "else", "while", "for", "in", "match", "return", "let", "mut", "fn", "as", "loop", "self", "true", "false", "break", "ref", "pub"}


def code(path):
    """The file without comments and without what only proofs read."""
    text = re.sub(r"//[^\n]*", lambda m: " " * len(m.group()), path.read_text(encoding="utf-8"))
    return re.sub(r"^\s*ghost use [^;]*;", lambda m: re.sub(r"[^\n]", " ", m.group()), text, flags=re.M)


def closing(text, at, pair):
    depth = 0
    for i in range(at, len(text)):
        depth += (text[i] == pair[0]) - (text[i] == pair[1])
        if depth == 0:
            return i
    return len(text)


def clauses_end(text, at):
    """Where the body of a function begins: behind its clauses, each of which stands in braces after a name."""
    while True:
        brace = text.find("{", at)
        head = text[at:brace]
        if brace < 0 or not re.search(r"\b(requires|ensures)\b", head):
            return brace
        at = closing(text, brace, "{}") + 1


def functions(path):
    text = code(path)
    for m in re.finditer(r"\bfn (\w+)\s*(<[^(]*>)?\(", text):
        end = closing(text, m.end() - 1, "()")
        parameters = [re.sub(r"\s+", " ", p).strip() for p in split(text[m.end():end])]
        semicolon, brace = text.find(";", end), text.find("{", end)
        if 0 <= semicolon < brace:
            continue
        start = clauses_end(text, end)
        body = text[start:closing(text, start, "{}") + 1]
        yield m.group(1), [p for p in parameters if p], body, text.count("\n", 0, m.start()) + 1


def split(text):
    parts, depth, last = [], 0, 0
    for i, c in enumerate(text):
        depth += (c in "([{<") - (c in ")]}>")
        if c == "," and depth == 0:
            parts.append(text[last:i])
            last = i + 1
    return parts + [text[last:]]


def shape(body):
    names = {}
    out = []
    for w in WORD.findall(body):
        if re.match(r"\d", w):
            out.append("0")
        elif re.match(r"\w", w) and w not in KEPT:
            out.append("n%d" % names.setdefault(w, len(names)))
        else:
            out.append(w)
    return tuple(out)


def show(point, places):
    places = list(places)
    for p in places:
        print(f"{point} {p}")
    print(f"{point} total {len(places)}\n")


files = sorted(TOP.glob("crates/*/src/**/*.rt"))
crate = {f: f.relative_to(TOP).parts[1] for f in files}
name = {f: str(f.relative_to(TOP)) for f in files}


def lines(pattern, keep=lambda line: True):
    for f in files:
        for i, line in enumerate(code(f).split("\n"), 1):
            if re.search(pattern, line) and keep(line):
                yield f"{name[f]}:{i}: {line.strip()}"


def comments(pattern):
    for f in files:
        for i, line in enumerate(f.read_text(encoding="utf-8").split("\n"), 1):
            if re.match(r"\s*//", line) and re.search(pattern, line):
                yield f"{name[f]}:{i}: {line.strip()[:140]}"


everything = [(f, *g) for f in files for g in functions(f)]

show("1a enum", lines(r"\benum \w+"))
show("1b number-for-kind-or-refusal", lines(r"\b(kind|number|status|base): &?(mut )?u(8|32)\b|-> u8 \{?$|Refused\(u8\)"
     , lambda s: not s.startswith("    pub number: u32")))
show("1c flag-in-a-struct", (f"{name[f]}: {m.group(1)}.{field}" for f in files for m in re.finditer(r"\bstruct (\w+)[^{;]*\{([^}]*)\}", code(f))
     for field in re.findall(r"(\w+): bool", m.group(2))))
show("1d none-as-a-value", comments(r"0 (where|for none|past)|where there (is|are) none|0 behind"))

twins = collections.defaultdict(list)
for f, fn, ps, body, at in everything:
    s = shape(body)
    if len(s) > 8:
        twins[(len(ps), s)].append(f"{name[f]}:{at} {fn}")
show("2 twins", (" = ".join(v) for v in twins.values() if len(v) > 1))
show("3 loop", lines(r"\b(while|loop)\b"))
show("4 by-hand", lines(r"\b(256|65536|16777216|4294967296)\b|fn (eq|cmp|clone|fmt|from|signed|digit|one_if|little_endian)\b"
     , lambda s: "const " not in s and "ensures" not in s and "requires" not in s))

groups = collections.defaultdict(set)
for f, fn, ps, body, at in everything:
    plain = [re.sub(r"&('\w+ )?(mut )?", "", p) for p in ps if p not in ("self", "&self", "&mut self")]
    for size in range(2, len(plain) + 1):
        for group in itertools.combinations(plain, size):
            groups[(crate[f], group)].add(f"{fn}")
travel = {k: v for k, v in groups.items() if len(v) >= 3}
best = {k: v for k, v in travel.items() if not any(k[0] == l[0] and set(k[1]) < set(l[1]) and v <= w for l, w in travel.items())}
show("5 parameters-together", (f"{k[0]}: ({', '.join(k[1])}) in {len(v)}: {', '.join(sorted(v))}" for k, v in sorted(best.items())))
show("6 array-or-index", lines(r"\[[\w:<>()]+; [A-Z_\w]+( as usize)?\]"))
show("7 flag-parameter", (f"{name[f]}:{at} {fn}({p})" for f, fn, ps, body, at in everything for p in ps if p.endswith(": bool")))
hand = sorted(TOP.glob("crates/*/proofs/**/Proof.antt"))
rows = collections.Counter(h.relative_to(TOP).parts[1] for h in hand)
show("8 written-proofs", (f"{c}: {k}" for c, k in rows.items()))
print("8 files", len(hand), "lines of all proofs", sum(len(p.read_text(encoding="utf-8").split("\n")) - 1 for p in TOP.glob("crates/*/proofs/**/*.antt")))
facts = collections.defaultdict(set)
for f in files:
    for m in re.finditer(r"\b(?:requires|ensures)( \w+)? \{", code(f)):
        text = code(f)
        clause = re.sub(r"\s+", " ", text[m.end():closing(text, m.end() - 1, "{}")]).strip()
        facts[(crate[f], clause)].add(text.count("\n", 0, m.start()) + 1)
show("5c clause-in-three-or-more", (f"{c}: {t} in {len(v)}" for (c, t), v in sorted(facts.items()) if len(v) >= 3))
long = [(len(ps), f"{name[f]}:{at} {fn}") for f, fn, ps, body, at in everything if len(ps) > 7]
show("5b more-than-seven-parameters", (f"{n} {p}" for n, p in long))
