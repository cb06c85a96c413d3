#!/usr/bin/env python3
"""Brings the repository's own words to the kit's spelling: definitions, fields and lemmas in snake case.

usage: python3 tools/respell.py [LIST]    at the top of the repository, once, right after the kit's port.py

A word is the repository's own where no file takes it from a library. Types, modules, functions of src/, strings, labels and the names that
the prover gives to the goals of a proof keep their spelling. LIST gets a line 'OLD NEW' for each word.
"""
import collections
import os
import re
import sys

WORD = re.compile(r"[^\s(){}\[\];,.⌜⌝⟦⟧]+")
USE = re.compile(r"(?m)^\s*(?:pub )?(?:ghost )?use ([^\s{;]+?)(?:\.\{([^}]*)\})?(?: as \S+)?;?$")


# Lemmas whose new name would be that of the definition they speak of, as they stand before this script runs.
LEMMAS = {"fold-high", "fold-low", "in-range", "is-number", "marks-of", "reverse-at", "slot-term", "unknown-set", "wrong-length", "first-half", "second-half", "in_order", "at_first", "too_large"}


def snake(word):
    parts = word.replace("getD", "get_or").replace("-", "_").split("_")
    parts = [p if len(p) == 1 else re.sub(r"(?<=[a-zζι])(?=[A-Zℤ])", "_", p).lower() for p in parts]
    return "_".join(parts) + ("_lem" if word in LEMMAS else "")


def is_own(word):
    return word in LEMMAS or bool(re.fullmatch(r"[\wζιμ']+(?:-[\wζιμ']+)+", word) or re.fullmatch(r"[a-zζι][\w']*[A-Zℤ][\w']*", word)) and not word[0].isdigit()


def files():
    for folder, dirs, names in os.walk("crates"):
        dirs[:] = sorted(d for d in dirs if d != "out")
        for name in sorted(names):
            if name.endswith((".rt", ".antt", ".edit")):
                yield os.path.join(folder, name)


def taken(text):
    """What the file takes from a library."""
    found = set()
    for m in USE.finditer(text):
        path = m.group(1)
        ours = path.startswith("Rattle.") and os.path.isdir("crates/" + path.split(".")[1])
        if m.group(2) and not ours:
            found |= {w.strip() for w in m.group(2).split(",")}
    return found


def modules(text):
    """The places of the paths of `use` lines, which are modules and keep their spelling."""
    return [m.span(1) for m in USE.finditer(text)]


def turn(path, text, words):
    keep = taken(text)
    walked = path.endswith("Proof.antt")
    spans = modules(text)

    def one(m):
        word, at = m.group(0), m.start()
        if word in keep or not is_own(word) or any(a <= at < b for a, b in spans):
            return word
        before = text[max(0, at - 5):at]
        if word in LEMMAS and ("/proofs/" not in path or before.endswith(".")):
            return word
        if path.endswith(".edit") and word not in words:
            return word
        if walked and (before.endswith("tie.") or (before.endswith(".") and "-" in word)):
            return word
        if path.endswith(".rt") and "-" in word:
            return word
        new = snake(word)
        words[word].add(new)
        return new

    lines = []
    at = 0
    for line in text.splitlines(keepends=True):
        cut = line.find("--") if path.endswith(".antt") else line.find("//") if path.endswith(".rt") else -1
        lines.append((at, at + (cut if cut >= 0 else len(line))))
        at += len(line)
    out, last = [], 0
    for a, b in lines:
        for m in WORD.finditer(text, a, b):
            if path.endswith(".rt") and '"' in text[a:m.start()]:
                continue
            new = one(m)
            if new != m.group(0):
                out += [text[last:m.start()], new]
                last = m.end()
    return "".join(out) + text[last:]


def main():
    words = collections.defaultdict(set)
    for path in sorted(files(), key=lambda p: p.endswith(".edit")):
        with open(path, encoding="utf-8") as f:
            text = f.read()
        new = turn(path, text, words)
        if new != text:
            with open(path, "w", encoding="utf-8") as f:
                f.write(new)
    together = collections.defaultdict(set)
    for old, new in words.items():
        together[next(iter(new))].add(old)
    for new, olds in sorted(together.items()):
        if len(olds) > 1:
            print("fall together:", new, "from", *sorted(olds))
    if len(sys.argv) > 1:
        with open(sys.argv[1], "w", encoding="utf-8") as f:
            f.writelines(f"{old} {next(iter(new))}\n" for old, new in sorted(words.items()))


if __name__ == "__main__":
    main()
