#!/usr/bin/env python3
"""Spells the definitions and lemmas of this repository as the library spells its own: words in snake case, a dash only
between two names. Run once, after the kit's port/port.py, at the top of the repository:

    python3 tools/respell.py [--check]

It goes by spelling and turns whole words alone: in the .antt files, in the .rt files outside strings, in the must-fail
edits, and in the code spans of README.md and docs/. Names of the Rattle source (functions, fields, modules, strings) keep
their spelling. It prints the names that fall together, and writes nothing under --check.
"""

import os
import re
import sys

TOKEN = re.compile(r"[^\s(){}.;,@\"«»:`]+")
DECLARED = re.compile(
    r"^ *(?:(?:unfoldable|abbrev|pub|ruleset) )*([^\s(){}.;,@\"«»:`]+(?: [^\s(){}.;,@\"«»:`]+)*) :(?= |$)", re.M
)
CAMEL = re.compile(r"(?<=[a-z0-9])([A-Z])")
LOWER = re.compile(r"^[a-z]")


def read(path):
    with open(path, encoding="utf-8") as f:
        return f.read()


def below(top, ends):
    for folder, dirs, files in os.walk(top):
        dirs[:] = sorted(d for d in dirs if d not in ("out", "target", ".git"))
        for f in sorted(files):
            if f.endswith(ends):
                yield os.path.join(folder, f)


def code_of(path, text):
    mark = "--" if path.endswith(".antt") else "//"
    return re.sub(mark + r"[^\n]*", "", text)


def snake(word):
    return CAMEL.sub(lambda m: "_" + m[1].lower(), word)


def is_of_a_function(path):
    """Whether the file is the proof of one function: the names of its goals are not ours."""
    return bool(re.search(r"/proofs/.*/(Proof|Answers|Invariants)\.antt$", path))


def names(texts):
    """The words that this repository declares, those of the source, and those that it takes from libraries."""
    declared, source, taken, words = set(), set(), set(), set()
    for path, text in texts.items():
        code = code_of(path, text)
        words.update(TOKEN.findall(code))
        if path.endswith(".antt"):
            for m in DECLARED.finditer(code):
                goal = code[m.end() :].lstrip().startswith(("tie.", "{M : Type 1}"))
                if not (goal and is_of_a_function(path)):
                    declared.update(m[1].split())
        else:
            source.update(re.findall(r"\b(?:fn|mod|const|struct|enum) (\w+)", code))
        for where, items in re.findall(r"use ([\w.+'-]+)\.\{([^}]*)\}", code):
            if not re.match(r"Rattle\.(?!std\b|core\b)", where):
                taken.update(TOKEN.findall(items))
    return declared, source, taken, words


def dashed(word, known):
    """A dash stays between two names, and a plain word is joined by an underscore."""
    parts = word.split("-")
    if not all(re.match(r"^[\w']+$", p) for p in parts):
        return word
    pieces, at = [], 0
    while at < len(parts):
        for end in range(len(parts), at, -1):
            if "_".join(parts[at:end]) in known:
                pieces.append(("_".join(parts[at:end]), True))
                at = end
                break
        else:
            pieces.append((parts[at], False))
            at += 1
    out = pieces[0][0]
    for (_, left), (it, right) in zip(pieces, pieces[1:]):
        out += ("-" if left and right else "_") + it
    return out


def table(texts):
    declared, source, taken, words = names(texts)
    turned = {w: snake(w) for w in words if LOWER.match(w) and CAMEL.search(w) and w not in source}
    known = {snake(w) for w in declared if "-" not in w and LOWER.match(w)} | source | taken
    known -= {w for w in known if len(w) < 3}
    others = {turned.get(w, w) for w in words if "-" not in w}
    for w in declared:
        if "-" in w and LOWER.match(w):
            new = dashed(snake(w), known)
            # A lemma that would have its function's name.
            turned[w] = new + "_lem" if new in others else new
    return {old: new for old, new in turned.items() if old != new}, words


def main(argv):
    check = "--check" in argv
    texts = {p: read(p) for p in below("crates", (".antt", ".rt"))}
    turned, words = table(texts)
    for path, text in texts.items():
        found = {}
        for w in set(TOKEN.findall(code_of(path, text))):
            found.setdefault(turned.get(w, w), set()).add(w)
        for new, olds in sorted(found.items()):
            if len(olds) > 1:
                print(f"together: {path}: {new}: {' '.join(sorted(olds))}")
    strings = re.compile(r'"(?:[^"\\\n]|\\.)*"')

    def turn(text):
        return TOKEN.sub(lambda m: turned.get(m[0], m[0]), text)

    def turn_outside_strings(text):
        out, at = [], 0
        for m in strings.finditer(text):
            out += [turn(text[at : m.start()]), m[0]]
            at = m.end()
        return "".join(out + [turn(text[at:])])

    if "--table" in argv:
        for old, new in sorted(turned.items()):
            print(old, new)
    if check:
        return
    for path in [*texts, *below("crates", (".edit",))]:
        text = read(path)
        new = turn_outside_strings(text) if path.endswith(".rt") else turn(text)
        if new != text:
            with open(path, "w", encoding="utf-8") as f:
                f.write(new)
    spans = re.compile(r"`[^`\n]+`")
    for path in ["README.md", *below("docs", (".md",))]:
        text = read(path)
        new = spans.sub(lambda m: turn(m[0]), text)
        if new != text:
            with open(path, "w", encoding="utf-8") as f:
                f.write(new)


main(sys.argv[1:])
