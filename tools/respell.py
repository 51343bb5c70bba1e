#!/usr/bin/env python3
"""Brings the names of this repository's own definitions and lemmas to the kit's spelling, at the top of the repository, once.

Words in snake case, types and modules in camel case. A lemma that would have a definition's name gets _lem. What a name is called in Rust, in C,
in strings, inputs and outputs stays. It goes by whole words: a word turns where crates/*/specs or crates/*/proofs declares it, but not in a file that takes
it from the kit's library, and not where Rattle itself makes it, as a goal's name. --check writes nothing.
"""

import collections
import glob
import re
import sys

WORD = r"[^\s(){}.;,@\"«»\[\]`]+"
DECLARED = re.compile(
    r"^(\s*)(?:(?:unfoldable|abbrev|pub|private|where)\s+)*(?:(?:record|data|let)\s+)?(" + WORD + r")((?:\s+(?:" + WORD + r"|\([^()]*\)|\{[^{}]*\}))*)\s*:(?=\s|$)"
)
BOUND = re.compile(r"(?:\blet\s+|λ\s*\(?|[({])((?:" + WORD + r"\s+)*?" + WORD + r")(?=\s*(?::\s|=\s|\.\s))")
RENAMED = re.compile(r"\bas\s+(" + WORD + ")")
LIBRARY = re.compile(r"use\s+((?:Rattle\.(?:std|core)|lib|mathlib|borrow|logic|Prim)\b[\w.'-]*)\.\{([^}]*)\}")
GOAL = re.compile(r"\b(?:tie|goal)\.")
# Where the rule below would give a name that says something else: a count beside the field of its name, a test beside its lemma.
CHOSEN = {"curveVertices": "curve_vertices_of", "curve-vertices": "curve_vertices_lem", "aboveZero": "is_above_zero"}
# As a record's field the first has the name of the field of `Sizes` that it stands beside; behind a module's name it is the count.
FIELDS = {"curveVertices": "curve_vertices"}
FIELD = re.compile(r"(?<![A-Z])(?<!Mesh)\.«?\0|(?:^\s+|[{;]\s*)(?:pub\s+)?\0\s+[=:](?:\s|$)")
KEPT = {"use", "where", "let", "record", "data", "open", "unfolding", "in", "elim", "as"}


def files():
    """The definitions and the lemmas."""
    found = []
    for part in ("specs", "proofs"):
        found += glob.glob(f"crates/*/{part}/**/*.antt", recursive=True)
    return sorted(found)


def old(name):
    """Whether a name has the older spelling: a dash between words, a capital within a word that begins small, or a prime that is no apostrophe."""
    if "′" in name:
        return True
    if not re.fullmatch(r"[A-Za-z0-9_'₀-₉-]+", name) or not re.search("[A-Za-z]", name):
        return False
    return "-" in name.strip("-") or (name[0].islower() and bool(re.search(r"[a-z0-9][A-Z]", name)))


def snake(name):
    """The kit's spelling: a type's name keeps its capitals within another."""
    if re.fullmatch(r"[A-Z0-9-]+", name):
        return name.replace("-", "_")
    parts = []
    for part in name.split("-"):
        if not part[:1].isupper():
            part = re.sub(r"(?<=[a-z0-9])([A-Z])", lambda m: "_" + m[1].lower(), part)
        parts.append(part)
    return "_".join(parts).replace("′", "'")


def read(path):
    with open(path, encoding="utf-8") as f:
        return f.read()


def code(text):
    """The text without comments, line by line."""
    return [re.sub(r"(^|\s)--(\s.*)?$", r"\1", line) for line in text.split("\n")]


def declared(texts):
    """Each name that a file declares or binds, with whether some specs/ declares it at a line's beginning."""
    names = {}
    for path, text in texts.items():
        for line in code(text):
            if GOAL.search(line) and re.match(r"^\S+ :", line):
                continue
            m = DECLARED.match(line)
            found = []
            if m and m[2] not in KEPT:
                found = [m[2], *re.findall(WORD, re.sub(r"\([^()]*\)|\{[^{}]*\}", " ", m[3] or ""))]
                for name in found:
                    names[name] = names.get(name, False) or ("/specs/" in path and not m[1])
            for m in BOUND.finditer(line):
                for name in m[1].split():
                    names.setdefault(name, False)
            for name in RENAMED.findall(line):
                names.setdefault(name, False)
    return names


def aliases(paths):
    """The names that clauses give to definitions by `as`."""
    out = set()
    for path in paths:
        for line in read(path).split("\n"):
            if line.startswith("ghost use "):
                out |= {name.rstrip("};") for name in RENAMED.findall(line)}
    return out


def taken(texts):
    """The words that each file takes from the kit's library."""
    out = collections.defaultdict(set)
    for path, text in texts.items():
        for m in LIBRARY.finditer(text):
            out[path] |= {item.strip().split(" as ")[0].strip() for item in m[2].split(",")}
    return out


def table(names, others):
    """Each old name with its new one. Where names fall together, one that specs/ declares keeps the name, and a lemma gets _lem."""
    new = {}
    by_new = collections.defaultdict(list)
    for name in names:
        if name in CHOSEN:
            new[name] = CHOSEN[name]
        elif old(name):
            by_new[snake(name)].append(name)
    for to, froms in by_new.items():
        froms.sort(key=lambda name: (not names[name], "-" in name, name))
        if to in names or to in others:
            froms = [None, *froms]
        for place, name in enumerate(froms):
            if name is not None:
                new[name] = to if place == 0 else to + "_lem" * place
    return new


def turned(text, new, kept, comments_only_quoted):
    """The text with each word turned that the table has and the file may turn. In a comment a word with a dash turns only between backticks."""

    def word(m):
        if m[0] in kept:
            return m[0]
        if m[0] in FIELDS and FIELD.search(m.string[: m.start()] + "\0" + m.string[m.end() :]):
            return FIELDS[m[0]]
        return new.get(m[0], m[0])

    def comment(t):
        t = re.sub(r"`[^`]*`", lambda m: re.sub(WORD, word, m[0]), t)
        return re.sub(WORD, lambda m: m[0] if "-" in m[0] else word(m), t)

    lines = []
    for line in text.split("\n"):
        m = re.search(comments_only_quoted, line)
        at = m.start() if m else len(line)
        head = re.sub(r'"(?:[^"\\]|\\.)*"|' + WORD, lambda m: m[0] if m[0][0] == '"' else word(m), line[:at])
        lines.append(head + comment(line[at:]))
    return "\n".join(lines)


def main(check):
    texts = {path: read(path) for path in files()}
    names = declared(texts)
    sources = sorted(glob.glob("crates/*/src/**/*.rt", recursive=True))
    library = taken(texts)
    new = table(names, set().union(*library.values()))
    for name in aliases(sources):
        if old(name):
            new.setdefault(name, snake(name))
    changed = 0

    def write(path, text, to):
        nonlocal changed
        if text != to:
            changed += 1
            if not check:
                with open(path, "w", encoding="utf-8") as f:
                    f.write(to)

    for path, text in texts.items():
        write(path, text, turned(text, new, library[path], r"(^|\s)--(\s|$)"))
    for path in sources:
        text = read(path)
        write(path, text, turned(text, new, taken({path: text})[path], r"//"))
    for path in sorted(glob.glob("crates/*/must-fail/*.edit")):
        text = read(path)
        write(path, text, turned(text, new, set(), r"^(?!(file|old|new): )"))
    for name in sorted(new):
        print(f"{name}\t{new[name]}")
    print(f"{len(new)} names, {changed} files", file=sys.stderr)


if __name__ == "__main__":
    main("--check" in sys.argv[1:])
