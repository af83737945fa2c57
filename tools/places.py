#!/usr/bin/env python3
"""Counts the places of docs/DESIGN-PASS.md in crates/*/src: tools/places.py [FOLDER], at the root of a checkout.

Points 1, 3, 4, 6 and 7 are lines that match a pattern. Point 2 is pairs of functions of one shape. Point 5 is parameters that
stand together in three functions or more, and facts that stand in three contracts or more."""
import collections
import difflib
import glob
import itertools
import os
import re
import sys

LINES = {
    "1 enums": r"^(pub )?enum ",
    "1 a flag among the fields of a struct": r"^    (pub )?(outcome|stage): ",
    "1 numbers for kinds and refusals": r"\b(kind|stage|tag|base): u(64|size)\b|^ *(pub )?fn (number|place|report\w*|tag_at|sound_tag)\b",
    "3 loops with while or loop": r"^ *(let \w+ = )?(while|loop)\b",
    "4 conversions, copies and tests by hand": r"\bfn (number|place|is_finite|abs|to_bits|from_bits|total_cmp|as_float|widen|from_le_bytes"
    r"|numbers_of|system_of|counts_of|copy\w*|put|take|zero_padded|load|store|with_\w+|wrapping_mul|digit\w*|decimal_width)\b",
    "6 a buffer with its length, parallel arrays, sorting by hand": r"^    pub len: |^const \w+: \[|\bfn (insert|sort\w*)\b|^pub struct (Points|Memory)",
    "7 a switch on what to run": r"^    if stage == |^    match system \{",
}

GROUPS = [
    "system matrix",
    "state tangents norms",
    "k h n",
    "rows exponents final_state",
    "floats counts",
    "settings queue",
    "x1 x2 x3 x4",
    "kind p0 p1 p2 dimension",
    "counts times",
    "rows exponents last",
]

FACTS = r"length \w+\.(?:now|old|entry) ≡ \d+|slot < 8|Contracts\.Sized|Fixed system|dim system ≤ 16|(?:width|WIDTH) ≤ 16|Cells cells|d ≤ 8|text\.len \+ [^ ]+ ≤ 50"

PLAIN = {"let", "mut", "while", "for", "in", "if", "else", "match", "return", "loop", "fn", "T"}


def functions(text):
    """Yields each function's name, parameters, and tokens without clauses."""
    text = re.sub(r"//[^\n]*", "", text)
    for found in re.finditer(r"\bfn (\w+)", text):
        at = found.end()
        if text[at] == "<":
            depth = 0
            while True:
                depth += {"<": 1, ">": -(text[at - 1] != "-")}.get(text[at], 0)
                at += 1
                if not depth:
                    break
        first = at = text.index("(", at)
        depth = 0
        while True:
            depth += {"(": 1, ")": -1}.get(text[at], 0)
            at += 1
            if not depth:
                break
        names = re.findall(r"(\w+):", text[first:at])
        end = re.compile(r"\s*(?:->.*?)?(?=\s*(?:\brequires\b|\bensures\b|\bghost\b|\bwhere\b|\{|;\n))", re.S).match(text, at).end()
        head = text[found.end() : end]
        clause = re.compile(r"\s*(?:(?:requires|ensures|ghost)\*?\s*\w*:?\s*\{|where[^{]*)")
        while (it := clause.match(text, end)) is not None:
            end = it.end()
            depth = 1 if text[end - 1] == "{" else 0
            while depth:
                depth += {"{": 1, "}": -1}.get(text[end], 0)
                end += 1
        start = text.index("{", end) if "{" in text[end:] else end
        depth, stop = 0, start
        while stop < len(text):
            depth += {"{": 1, "}": -1}.get(text[stop], 0)
            stop += 1
            if not depth:
                break
        tokens = re.findall(r"[A-Za-z_]\w*|\d[\w.]*|[^\s\w]", head + text[start:stop])
        tokens = ["0" if it[0].isdigit() else "T" if it in ("f64", "u64", "usize", "u32", "u8") else it for it in tokens]
        yield found.group(1), names, tokens


def main():
    os.chdir(sys.argv[1] if sys.argv[1:] else ".")
    texts = {it: open(it).read() for it in sorted(glob.glob("crates/*/src/*.rt"))}
    for name, pattern in LINES.items():
        found = [f"{it}: {line.strip()}" for it, text in texts.items() for line in text.splitlines() if re.search(pattern, line)]
        print(f"== {name}: {len(found)}", *found, sep="\n   ")
    every = [(f"{it.split('/')[1]}::{name}", names, tokens) for it, text in texts.items() for name, names, tokens in functions(text)]
    pairs = []
    for (a, _, x), (b, _, y) in itertools.combinations(every, 2):
        if min(len(x), len(y)) < 25 or abs(len(x) - len(y)) > max(len(x), len(y)) / 4:
            continue
        match = difflib.SequenceMatcher(None, x, y, autojunk=False)
        if match.real_quick_ratio() < 0.55 or match.ratio() < 0.8:
            continue
        shapes = [["i" if it[0].isalpha() and it not in PLAIN else it for it in tokens] for tokens in (x, y)]
        if difflib.SequenceMatcher(None, *shapes, autojunk=False).ratio() >= 0.85:
            pairs.append(f"{match.ratio():.2f} {a} {b}")
    print(f"== 2 pairs of {len(every)} functions with one shape: {len(pairs)}", *sorted(pairs, reverse=True), sep="\n   ")
    for group in GROUPS:
        found = [a for a, names, _ in every if set(group.split()) <= set(names)]
        if len(found) >= 3:
            print(f"== 5 functions with the parameters {group}: {len(found)}")
    facts = collections.Counter(re.sub(r" \w+\.(now|old|entry)", " _", it) for text in texts.values() for it in re.findall(FACTS, text))
    for fact, count in facts.most_common():
        if count >= 3:
            print(f"== 5 clauses with the fact {fact}: {count}")


main()
