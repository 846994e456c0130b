#!/usr/bin/env python3
"""Respells the repository's own definitions and lemmas: a word in lower camel case becomes snake case (rowsOf, rows_of), and so does a field of
a record in specs/ that has a dash (away-bid, away_bid). In pages of definitions a word of std that has two names gets the one that clauses use.

usage: python3 tools/respell.py [--try]    at the top of the repository, after the kit's port.py; --try only says what it would do

Words are those that a file of specs/ or proofs/ declares (definitions, lemmas, constructors, fields), the ghost members of src/, and the names that imports give.
They are respelled in every .antt file, and in .rt files outside comments and strings, where Rust itself has no such word.
A part of a name that begins with a capital is a type or a fact, and keeps its spelling.
"""
import os
import re
import sys

WORD = re.compile(r"[^\s(){}\[\],.;:«»⌜⌝\"`]+")
DECLARED = re.compile(r"^(?:(?:pub|abbrev|unfoldable)\s+)*([^\s(){}\[\],.;:«»]+)\s*:(?:\s|$)")
MEMBER = re.compile(r"^\s+(?:(?:pub|abbrev|unfoldable)\s+)*([^\s(){}\[\],.;:«»]+)\s*:(?:\s|$)")
GHOST = re.compile(r"^\s*ghost\s+([A-Za-z_][\w']*)\s*[:=]")


FIELD = re.compile(r"^\s+pub\s+([a-z][a-z0-9_]*(?:-[a-z0-9_]+)+)\s*:(?:\s|$)")
# std's words with two names: the one that clauses use
ONE_NAME = {"leb": "nat_le", "ltb": "nat_lt", "get_or": "slice_index_or"}


def fields_of_records(text):
    """The fields with a dash that the records of a page of specs/ declare."""
    inside = False
    for line in text.splitlines():
        if line and not line[0].isspace():
            inside = bool(re.match(r"(?:pub\s+)?record\b", line))
        elif inside and (m := FIELD.match(line)):
            yield m[1]


def with_one_name(text):
    """A page of definitions with one name for each word of std; a page of lemmas stays."""
    if not re.search(r"(?m)^abbrev |^pub (?:record|data) ", text):
        return text
    uses = re.compile(r"(?m)^use Rattle\.std\.specs\.Prelude\.\{([^}]*)\}")
    made = WORD.sub(lambda m: ONE_NAME.get(m[0], m[0]), text)

    def once(m):
        names = []
        for n in m[1].split(", "):
            if n not in names:
                names.append(n)
        return m[0].replace(m[1], ", ".join(names))

    return uses.sub(once, made)


def snake(word):
    parts = re.split(r"(-)", word)
    return "".join(p if p[:1].isupper() else re.sub(r"(?<=[a-z0-9])([A-Z])", lambda m: "_" + m[1].lower(), p) for p in parts)


def files():
    for folder, dirs, names in os.walk("crates"):
        dirs[:] = sorted(d for d in dirs if d != "out")
        for n in sorted(names):
            if n.endswith((".antt", ".rt")):
                yield os.path.join(folder, n)


def code_spans(text):
    """The parts of a .rt text that are no comment and no string."""
    at = 0
    for m in re.finditer(r"//[^\n]*|\"(?:\\.|[^\"\\])*\"", text):
        yield at, m.start(), True
        yield m.start(), m.end(), False
        at = m.end()
    yield at, len(text), True


def main():
    trying = "--try" in sys.argv
    texts = {f: open(f, encoding="utf-8").read() for f in files()}
    new = {}
    for f, text in texts.items():
        for line in text.splitlines():
            m = GHOST.match(line) if f.endswith(".rt") else DECLARED.match(line) or MEMBER.match(line)
            named = re.findall(r" as ([a-z][\w'-]*)", line) + ([m[1]] if m else [])
            new.update((n, snake(n)) for n in named if snake(n) != n)
    back = {}
    for old, it in new.items():
        back.setdefault(it, []).append(old)
    for it, olds in sorted(back.items()):
        if len(olds) > 1:
            print("falls together:", it, olds)
    for f, text in texts.items():
        words = set(WORD.findall(text))
        for w in sorted(words):
            if w in new and new[w] in words:
                print("already there:", f, w, new[w])
            elif w not in new and snake(w) != w and f.endswith(".antt") and re.fullmatch(r"[a-z][\w'-]*", w):
                print("not declared:", f, w)
    if trying:
        return
    change = lambda m: new.get(m[0], m[0])
    dashed = {n for f, text in texts.items() if "/specs/" in f for n in fields_of_records(text)}
    new.update((n, n.replace("-", "_")) for n in dashed)
    for f, text in texts.items():
        if f.endswith(".antt"):
            made = WORD.sub(change, text)
            if "/specs/" in f:
                made = with_one_name(made)
        else:
            made = "".join(WORD.sub(change, text[a:b]) if code else text[a:b] for a, b, code in code_spans(text))
        if made != text:
            with open(f, "w", encoding="utf-8") as out:
                out.write(made)
    print(f"{len(new)} words respelled")


main()
