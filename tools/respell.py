#!/usr/bin/env python3
"""Brings the repository's own names to the spelling of the newer Rattle: snake case for words, fields and lemmas.

usage: python3 tools/respell.py            at the top: renames, in crates/ (.antt and .rt), what tools/respelled.txt lists; once,
                                           since 'apart' would take the renamed words for lemmas: a second run changes nothing
       python3 tools/respell.py --list     prints such a list, made from the files as they stand

The list has three kinds of lines: 'word OLD NEW' (a word in camel case, renamed wherever it stands), 'lemma OLD NEW' (a lemma
with a dash between plain words, renamed in .antt files outside comments) and 'apart OLD NEW' (a lemma whose name a word of the
list takes: it gets '_lem', and is renamed before the words are). Functions of src/, exported names and strings keep theirs.
"""

import collections
import glob
import os
import re
import sys

LIST = os.path.join(os.path.dirname(os.path.realpath(__file__)), "respelled.txt")
TOKEN = re.compile(r"[\w'-]+")
WORD = re.compile(r"[a-z][a-z0-9]*([A-Z][a-z0-9₀-₉]*)+")
DEFINED = re.compile(r"\s*(?:abbrev |unfoldable |pub )*([a-z][\w'-]*)\s*:\s")
LISTS = {"length", "take", "drop", "set", "sets", "append", "replicate", "map", "cond", "sum"}
APART = ["goes_on", "no_room"]
# There it is a field of a record, which no word hides.
FIELDS_IN = "crates/traverse/"


def files():
    return sorted(glob.glob("crates/*/src/**/*.rt", recursive=True) + glob.glob("crates/*/specs/**/*.antt", recursive=True) + glob.glob("crates/*/proofs/**/*.antt", recursive=True))


def read(path):
    with open(path, encoding="utf-8") as f:
        return f.read()


def snake(name):
    return re.sub(r"([a-z0-9])([A-Z])", r"\1_\2", name).lower()


def of_function(path):
    """Whether a file belongs to one function's proof: its names are the check's."""
    return path.endswith(".antt") and bool(re.match(r"crates/\w+/proofs/.+/", path))


def listed():
    tokens, defined = set(), set()
    for path in files():
        text = read(path)
        tokens |= set(TOKEN.findall(text))
        if path.endswith(".antt") and not of_function(path):
            defined |= {m.group(1) for m in map(DEFINED.match, text.splitlines()) if m}
    words = {t.rstrip("'") for t in tokens if WORD.fullmatch(t.rstrip("'"))}
    known = LISTS | {snake(d) for d in defined if "-" not in d}
    lines = [f"apart {a} {a}_lem" for a in APART]
    lines += [f"word {w} {snake(w)}" for w in sorted(words)]
    taken = {t.replace("-", "_") for t in tokens if "-" not in t} | {snake(w) for w in words}
    for d in sorted(defined):
        if "-" not in d:
            continue
        parts = [snake(p) for p in d.split("-")]
        new = ("-" if parts[0] in known else "_").join(parts)
        if new != d and new not in taken:
            lines.append(f"lemma {d} {new}")
            taken.add(new)
    return lines


def turned(text, path, words, lemmas, apart):
    """A file's text with the names of the list."""
    spec = path.endswith(".antt")
    own = of_function(path)

    def name(m, comment):
        t = m.group(0)
        after_dot = m.start() > 0 and m.string[m.start() - 1] == "."
        base = t.rstrip("'")
        primes = t[len(base):]
        if spec and not comment and base in apart and not own and not after_dot and not path.startswith(FIELDS_IN):
            return apart[base] + primes
        if base in words:
            return words[base] + primes
        if spec and not comment and base in lemmas and not (own and after_dot):
            return lemmas[base] + primes
        if "-" in base:
            return "-".join(words.get(p, p) for p in base.split("-")) + primes
        return t

    out = []
    for line in text.split("\n"):
        cut = line.find("--") if spec else -1
        while cut > 0 and not line[cut - 1].isspace():
            cut = line.find("--", cut + 2)
        head, tail = (line, "") if cut < 0 else (line[:cut], line[cut:])
        out.append(TOKEN.sub(lambda m: name(m, False), head) + TOKEN.sub(lambda m: name(m, True), tail))
    return "\n".join(out)


def main():
    if sys.argv[1:] == ["--list"]:
        print("\n".join(listed()))
        return 0
    maps = collections.defaultdict(dict)
    for line in read(LIST).split("\n"):
        if line.strip():
            kind, old, new = line.split(" ")
            maps[kind][old] = new
    texts = {path: read(path) for path in files()}
    if not any(t.rstrip("'") in maps["word"] for text in texts.values() for t in TOKEN.findall(text)):
        print("respell: no word of the list stands here: it has run already, and changes nothing", file=sys.stderr)
        return 1
    changed = 0
    for path, text in texts.items():
        new = turned(text, path, maps["word"], maps["lemma"], maps["apart"])
        if new != text:
            with open(path, "w", encoding="utf-8") as f:
                f.write(new)
            changed += 1
    print(f"respell: {changed} files changed")
    return 0


if __name__ == "__main__":
    raise SystemExit(main())
