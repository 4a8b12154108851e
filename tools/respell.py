#!/usr/bin/env python3
"""Brings this repository's own definitions and lemmas to snake case, after port.py has turned the spelling of the language.

usage: python3 tools/respell.py            in the repository, over the tree as port.py left it
       python3 tools/respell.py --map      prints the names that it turns, old and new

A name is turned where this repository binds it: by a signature, a constructor, a field, a let, a lambda or a parameter. Types, modules and
facts keep their capital. Names of the library and names that Rattle makes stay as they are, and so does every function, type and string of
src/: in a .rt file only clauses and imports of definitions are touched, and in comments only what stands in backticks. A lemma whose name
would fall together with a definition's gets `_lem`, as the style of the language says.
"""
import os
import re
import sys

ROOT = os.path.dirname(os.path.dirname(os.path.abspath(__file__)))
WORD = re.compile(r"[A-Za-z_][\w'′₀-₉]*(?:-[\w'′₀-₉]+)*")
OWN_SIGNATURE = re.compile(r"\s*(?:\||(?:pub|unfoldable|abbrev|private|irrelevant) )*\s*([A-Za-z_][\w'′₀-₉]*(?:-[\w'′₀-₉]+)*)((?: +[A-Za-z_][\w'′₀-₉-]*)*)(?:\s*\{[^}:]*\})*\s*:(?![:=])")
LET = re.compile(r"\blet +([A-Za-z_][\w'′₀-₉]*(?:-[\w'′₀-₉]+)*)")
LAMBDA = re.compile(r"λ((?: +[A-Za-z_][\w'′₀-₉-]*)+)\.")
BINDER = re.compile(r"[({]((?:[A-Za-z_][\w'′₀-₉-]* +)+):")
LIBRARY_USE = re.compile(r"^(?:ghost )?use (?!Rattle\.(?:%s)\.)[^{;\n]*(?:\{[^}]*\})?", re.S | re.M)
# Where port.py turned two names of this repository to one: (the one name, the lemma's file and those that cite the lemma)
FELL_TOGETHER = {
    "bit_at": ["run/proofs/WordsAndStates.antt"],
    "four_bytes": ["model/proofs/RoundTrip.antt"],
    "from_end": ["bands/proofs/KeptMarks.antt", "marks/proofs/MarkedBand.antt"],
    "held_in": ["emit/proofs/NextBody.antt"],
    "in_order": ["widths/proofs/CountedWidths.antt"],
    "map_of": ["model/proofs/RoundTrip.antt", "model/proofs/WrittenTables.antt"],
    "no_fields": ["model/proofs/WrittenTables.antt"],
    "number_at": ["decoded/proofs/WordsOfARecord.antt"],
    "rank_below": ["faults/proofs/Refusal12.antt"],
    "row_at": ["faults/proofs/CallLengthLaws.antt", "faults/proofs/Refusal12.antt", "faults/proofs/RowLaws.antt", "faults/proofs/RowTableFill.antt"],
    "row_is": ["faults/proofs/RowLaws.antt", "faults/proofs/RowOperations.antt", "model/proofs/PageLines.antt"],
    "same_length": ["compile/proofs/clear/Proof.antt"],
    "turned_round": ["inverse/proofs/CopiedRecords.antt"],
}


def snake(word):
    word = re.sub(r"(?<=[a-z0-9])([A-Z])", lambda m: "_" + m.group(1).lower(), word)
    return word.replace("-", "_").replace("′", "'")


def files(kinds):
    for folder, dirs, names in os.walk(os.path.join(ROOT, "crates")):
        dirs[:] = sorted(d for d in dirs if d != "out")
        for name in sorted(names):
            if name.endswith(kinds):
                yield os.path.join(folder, name)


def read(path):
    with open(path, encoding="utf-8") as f:
        return f.read()


def crates():
    return sorted(c for c in os.listdir(os.path.join(ROOT, "crates")) if os.path.isdir(os.path.join(ROOT, "crates", c, "src")))


def library_use():
    return re.compile(LIBRARY_USE.pattern % "|".join(crates()), re.S | re.M)


def code_of(line):
    """The part of a line before its comment, and the comment."""
    m = re.search(r"(?:^|\s)(--|//)(?=\s|$)", line)
    return (line[: m.start(1)], line[m.start(1) :]) if m else (line, "")


def bound_names(text):
    for line in text.split("\n"):
        code, _ = code_of(line)
        m = OWN_SIGNATURE.match(code)
        if m:
            yield m.group(1)
            yield from m.group(2).split()
        yield from LET.findall(code)
        for group in LAMBDA.findall(code) + BINDER.findall(code):
            yield from group.split()


def turned_names():
    bound, taken = set(), set()
    use = library_use()
    for path in files(".antt"):
        text = read(path)
        bound.update(bound_names(text))
        for m in use.finditer(text):
            inside = m.group(0).split("{", 1)
            if len(inside) == 2:
                taken.update(WORD.findall(inside[1]))
    names = {}
    for word in bound - taken:
        if word[0].isupper() or (word == snake(word)):
            continue
        names[word] = snake(word)
    camel = {new for old, new in names.items() if "-" not in old} | {w for w in bound if w == snake(w) and "_" in w and not w[0].isupper()}
    for old, new in names.items():
        if "-" in old and new in camel:
            names[old] = new + "_lem"
    return names


def turn_words(text, names):
    return WORD.sub(lambda m: names.get(m.group(0), m.group(0)), text)


def turn_ticks(text, names):
    return re.sub(r"`[^`\n]*`", lambda m: turn_words(m.group(0), names), text)


def turn_antt(text, names, use):
    kept = []

    def keep(m):
        kept.append(m.group(0))
        return f"\0{len(kept) - 1}\0"

    text = use.sub(keep, text)
    lines = []
    for line in text.split("\n"):
        code, comment = code_of(line)
        lines.append(turn_words(code, names) + turn_ticks(comment, names))
    return re.sub("\0(\\d+)\0", lambda m: kept[int(m.group(1))], "\n".join(lines))


def turn_rt(text, names):
    """Turns clauses, ghost items and imports of definitions; in comments what stands in backticks."""
    lines, depth, ghost = [], 0, False
    for line in text.split("\n"):
        code, comment = code_of(line)
        starts = re.match(r"\s*(requires|ensures|ghost|invariant)\b", code)
        if starts and not ghost:
            ghost, depth = True, 0
        if ghost:
            depth += code.count("{") - code.count("}")
            code = turn_words(code, names)
            if depth <= 0 and (starts is None or "{" in code or ";" in code):
                ghost = False
        lines.append(code + turn_ticks(comment, names))
    return "\n".join(lines)


def part_fallen(path, text):
    at = os.path.relpath(path, os.path.join(ROOT, "crates"))
    for word, places in FELL_TOGETHER.items():
        if at in places:
            text = re.sub(rf"(?<![\w.'-]){word}(?![\w.'-])", word + "_lem", text)
    return text


def main(argv):
    names = turned_names()
    if argv == ["--map"]:
        for old, new in sorted(names.items()):
            print(old, new)
        return 0
    use = library_use()
    for path in files((".antt", ".rt")):
        before = read(path)
        after = turn_rt(before, names) if path.endswith(".rt") else turn_antt(part_fallen(path, before), names, use)
        if after != before:
            with open(path, "w", encoding="utf-8") as f:
                f.write(after)
    return 0


if __name__ == "__main__":
    raise SystemExit(main(sys.argv[1:]))
