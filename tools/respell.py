#!/usr/bin/env python3
"""Spells the repository's own definitions and lemmas in snake case, once, after the toolchain's port.py.

usage: python3 tools/respell.py        at the top of the repository, on the tree that port.py leaves

A name turns if a file of a crate's specs/ or proofs/ declares it (the files of a function's own proof aside) and it is
written with a capital inside or with a dash: `recordBytes` becomes `record_bytes`, `judged-unique` `judged_unique`.
Types, facts and modules keep their capital. Where a lemma would take a definition's name it gets `_lem`.
What the Rust of src/ declares, strings, inputs and outputs stay. In src/ only clauses and `ghost use` items turn. In
README.md and docs/ only code spans turn, there those names too that port.py turned: what no source has any more and has
in snake case. It lists on standard output each name that it turned, and what it was.
"""

import collections
import os
import re

WORD = re.compile(r'[^\s(){}.;,@"«»]+')
QUIET = re.compile(r'"(?:[^"\\\n]|\\.)*"|(?<![^\s(){}.;,@"«»])--[^\n]*|\{-.*?-\}', re.S)
DECLARED = re.compile(r'(?m)^ *(?:(?:pub|abbrev|unfoldable) +)*([^\s(){}.;,@"«»:]+)(?: \{[^{}\n]*\})* :(?!:)')
CLAUSE = re.compile(r"\b(?:requires|ensures|ghost)\b\*?\s*(?:\w+\s*)?\{")
GHOST_USE = re.compile(r"ghost\s+use\b[^;]*;")
SPAN = re.compile(r"`[^`\n]+`")


def snake(name):
    """The name in snake case."""
    return re.sub(r"(?<=[a-z0-9])[A-Z]", lambda m: "_" + m[0].lower(), name).replace("-", "_")


def files(*endings):
    for folder, dirs, names in os.walk("crates"):
        dirs[:] = sorted(d for d in dirs if d != "out")
        for name in sorted(names):
            if name.endswith(endings):
                yield os.path.join(folder, name)


def is_shared(path):
    """Whether an antt file stands in specs/ or proofs/ itself, and not in the folder of a function's proof."""
    steps = path.split(os.sep)
    return len(steps) == 4 and steps[2] in ("specs", "proofs")


def read(path):
    with open(path, encoding="utf-8") as f:
        return f.read()


def table():
    """Each declared name that turns, with its new spelling."""
    declared, words = {}, set()
    for path in files(".antt"):
        code = QUIET.sub(" ", read(path))
        words.update(w for w in WORD.findall(code) if is_shared(path))
        if is_shared(path):
            for name in DECLARED.findall(code):
                if name[0].islower() and snake(name) != name:
                    declared[name] = snake(name)
    taken = collections.Counter(declared.values())
    for name, new in declared.items():
        if "-" in name and (new in words or taken[new] > 1):
            declared[name] = new + "_lem"
    return declared


def turned(text, names):
    return WORD.sub(lambda m: names.get(m[0], m[0]), text)


def in_spans(text, names):
    """The text with the names in its code spans turned."""
    return SPAN.sub(lambda m: re.sub(r"[\w'-]+", lambda w: names.get(w[0], w[0]), m[0]), text)


def in_antt(text, names):
    """An antt file: its code, and the code spans of its comments."""
    out, at = [], 0
    for quiet in QUIET.finditer(text):
        out += [turned(text[at : quiet.start()], names), in_spans(quiet[0], names)]
        at = quiet.end()
    return "".join(out + [turned(text[at:], names)])


def closing(text, at):
    """Where the brace that opens before `at` is closed."""
    depth = 1
    while depth:
        depth += {"{": 1, "}": -1}.get(text[at], 0)
        at += 1
    return at


def in_rattle(text, names):
    """A file of src/: its clauses and its `ghost use` items."""
    out, at = [], 0
    for found in sorted([*CLAUSE.finditer(text), *GHOST_USE.finditer(text)], key=lambda m: m.start()):
        if found.start() < at:
            continue
        end = closing(text, found.end()) if found[0].endswith("{") else found.end()
        out += [in_spans(text[at : found.start()], names), turned(text[found.start() : end], names)]
        at = end
    return "".join(out + [in_spans(text[at:], names)])


def turn_files(paths, turn, names):
    for path in paths:
        text = read(path)
        new = turn(text, names)
        if new != text:
            with open(path, "w", encoding="utf-8") as f:
                f.write(new)


def left_behind(pages):
    """The names in code spans of the pages that no source has any more, and that the sources have in snake case."""
    sources = {w for path in files(".antt", ".rt") for w in re.findall(r"[\w'-]+", read(path))}
    spans = (span for page in pages for span in SPAN.findall(read(page)))
    said = {w for span in spans for w in re.findall(r"[\w'-]+", span)}
    return {w: snake(w) for w in said if w not in sources and w[0].islower() and snake(w) in sources}


def main():
    names = table()
    turn_files(files(".antt"), in_antt, names)
    turn_files(files(".rt"), in_rattle, names)
    pages = ["README.md"] + [os.path.join("docs", p) for p in sorted(os.listdir("docs"))]
    turn_files(pages, in_spans, names)
    turn_files(pages, in_spans, left_behind(pages))
    for old in sorted(names):
        print(old, names[old])


main()
