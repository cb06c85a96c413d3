#!/usr/bin/env python3
"""Counts, at a commit, the places of src/ that docs/DESIGN-PASS.md speaks of: design_count.py COMMIT [POINT] (with a point, each place is listed)."""
import re
import subprocess
import sys
from collections import defaultdict

commit = sys.argv[1]
point = sys.argv[2] if len(sys.argv) > 2 else None


def git(*words):
    return subprocess.run(["git", *words], capture_output=True, text=True, check=True).stdout


def files(pattern):
    return [name for name in git("ls-tree", "-r", "--name-only", commit).splitlines() if re.fullmatch(pattern, name)]


sources = {name: git("show", f"{commit}:{name}").splitlines() for name in files(r"crates/[a-z_0-9]+/src/.*\.rt")}
answers = {name: git("show", f"{commit}:{name}").splitlines() for name in files(r"crates/.*/proofs/.*/(Answers|Invariants)\.antt")}
rows = []


def row(number, what, places):
    rows.append((number, what, places))


def lines(pattern):
    return [f"{name}:{i + 1}: {line.strip()}" for name, text in sources.items() for i, line in enumerate(text) if re.search(pattern, line)]


# 1. An enum is of the shape of Option or Result if it has two cases, one of them with what was found, or a case for "all is well" beside refusals.
def enums():
    found = []
    for name, text in sources.items():
        for i, line in enumerate(text):
            if re.match(r"\s*(pub )?enum \w+", line):
                cases = []
                for inner in text[i + 1:]:
                    if inner.startswith("}"):
                        break
                    case = re.match(r"\s+(\w+)(\(.*\))?,", inner)
                    if case:
                        cases.append(case)
                held = [c for c in cases if c.group(2)]
                if (len(cases) == 2 and held) or any(c.group(1) in ("Done", "Ok") for c in cases):
                    found.append(f"{name}:{i + 1}: {line.strip()}")
    return found


row("1", "own enums of the shape of Option or Result", enums())
row("1", "a place, or the length for none", lines(r"(the|The) length where|length of the list where|stands for none of them"))
row("1", "numbers and flags for kinds: a place 9 or a pair At(0, 0) for none, 6 or 0 for whether, a bool beside what it speaks of",
    lines(r"lending\([^()]*, 9\)|= At\(0, 0\)|buffers: usize|(sealed|above|first|kept): bool|\b(true|false), (At|none)"))


# 2. Functions of one shape: the same tokens but for names, types of numbers and numbers, four lines at least.
def twins():
    shapes = defaultdict(list)
    for name, text in sources.items():
        i = 0
        while i < len(text):
            head = re.match(r"(\s*)(?:pub(?:\(crate\))? )?(?:extern \"C\" )?fn (\w+)", text[i])
            if not head:
                i += 1
                continue
            end = i
            while end < len(text) and text[end] != head.group(1) + "}":
                end += 1
            code = [l.strip() for l in text[i:end + 1] if not re.match(r"\s*(requires|ensures|//)", l)]
            names = {}
            shape = []
            for token in re.findall(r"\w+|[^\w\s]", " ".join(code)):
                if re.fullmatch(r"\d\w*|u8|u16|u32|usize|i32|u64", token):
                    shape.append("#")
                elif re.fullmatch(r"fn|pub|let|mut|for|in|if|else|match|return|while|loop|true|false|as|self", token):
                    shape.append(token)
                elif re.fullmatch(r"\w+", token):
                    shape.append(names.setdefault(token, f"n{len(names)}"))
                else:
                    shape.append(token)
            if len(code) >= 6 and "face" not in name and "bench_steps" not in name:
                shapes[" ".join(shape)].append(f"{name}:{i + 1}: {head.group(2)}")
            i = end + 1
    return [" ~ ".join(group) for group in shapes.values() if len(group) > 1]


row("2", "groups of functions of one shape", twins())
row("3", "loops over a range, while, loop", lines(r"^\s*(while |loop \{)|^\s*for \w+ in .*\.\."))
row("4", "conversions by `as` that lose nothing", lines(r"\b[a-z_]+(\[[^\]]*\]|\.0)? as (u16|u32|u64|usize|i32)\b"))
row("4", "printing and conversion by hand", lines(r"fn (name|plain|byte|bytes|number|answer|text|term|wide|width|put_decimal|put_digits)\("))
row("5", "`x < q` of a residue", lines(r"\b\w+\.(0|value) < q\b"))
row("5", "`Ready` of half, step and powers", lines(r"^\s*(requires|ensures|pub ghost|ghost [a-z]+:).*\bReady "))
row("5", "`Powers` of a lent table", lines(r"^\s*(requires|ensures).*Powers generator one"))
row("5", "half, step and powers side by side", lines(r"half: usize"))
row("5", "`Residues` of a list", lines(r"^\s*(requires|ensures).*\bResidues "))
row("5", "`Below` of bits and marks", lines(r"^\s*(requires|ensures).*\bBelow "))
# the crates that make rooms are left out, since those that call them are counted
made = lines(r"\brooms::|= room::(bytes|numbers)\(|\.room\(\)|= (zeros_but|ramp)\(|\[(\w+::FILL|fill|0x[0-9A-F]+|[0-9]+(u8|u16)?); [\w:]+\]")
row("6", "rooms of fixed length: each array of one value, and each call that gives one", [place for place in made if "rooms/src/" not in place])
row("6", "a lent room beside what is written", lines(r"^\s*(halves|bits|p|q|r|c|f|g|h|inverse|lent): &mut \[u(8|16)\]"))
row("6", "a place beside the buffer", lines(r"at: usize, out: &mut \[u8\]"))


# 7. `match self` is of the type that the impl above names. The function above tells what only prints a call's name.
def switches():
    found = []
    for name, text in sources.items():
        head = function = ""
        for i, line in enumerate(text):
            head = line if line.startswith("impl") else head
            function = line if re.match(r"\s*(pub )?fn \w+", line) else function
            over = re.search(r"match (self\.)?call\b", line) or (re.search(r"match self \{", line) and re.search(r"\bCall \{", head))
            if over and not re.search(r"fn (name|fmt)\b", function):
                found.append(f"{name}:{i + 1}: {line.strip()}")
    return found


row("7", "a switch over the calls: a `match` of a call, but for the one that prints its name", switches())
repeated = []
for name, text in answers.items():
    seen = defaultdict(int)
    for line in text:
        if line.strip().startswith("let ") and len(line.strip()) > 40:
            seen[line.strip()] += 1
    repeated += [f"{name}: {n} times {line}" for line, n in seen.items() if n > 2]
row("8", "lines of answers and invariants", [f"{name}: {len(text)}" for name, text in answers.items() for _ in text])
row("8", "a `let` that a file of answers repeats three times or more", repeated)

for number, what, places in rows:
    if point is None:
        print(f"{number}  {len(places):5}  {what}")
    elif number == point:
        print(f"{number}  {len(places):5}  {what}")
        for place in sorted(set(places)):
            print("      ", place)
