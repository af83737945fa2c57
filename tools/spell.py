#!/usr/bin/env python3
"""Spells the names of this repository's own definitions and lemmas with underscores, as `first_failing`.

usage: python3 tools/spell.py    at the top of the repository, once, after the toolchain's own script

A name is turned where specs/ or proofs/ declare it: in their files, in clauses and imports of src/, in code spans of comments,
in must-fail edits, and in code spans of README.md, docs/*.md and host/README.md. Goals, which the prover names, keep their spelling, and so do
functions, strings and exported names. Names that would fall together are printed, and then nothing is written.
A file specs/Contracts.antt, whose name the prover now takes, becomes specs/Promises.antt.
"""
import collections
import glob
import os
import re
import sys

WORD = r"[^\s(){}.;,@\"«»\[\]\\`]+"
DECLARED = re.compile(
    r"^\s*(?:(?:abbrev|pub|unfoldable|opaque|private|data|record)\s+)*"
    r"(" + WORD + r")(?:\s+\{[^{}]*\}|\s+\([^()]*\))*\s*:(?:\s+(.*)|$)"
)
HYPHEN = re.compile(r"[A-Za-z0-9]-[A-Za-z0-9]")
# what the prover names: a goal's name at its type, and the theorem of a function
GOAL = re.compile(r"^(?:tie\.|goal\.|.*\bstatement\b)")
TOKEN = re.compile(WORD)
# a word of the library has the name that these would get
OTHERWISE = {"is-nan": "only_nan", "in-float": "float_holds"}
# fields of a record of specs/ and of a struct of src/, told apart by their type
FIELDS = {"step-size", "final-time", "measured-time", "warm-up", "two-before"}
SPAN = re.compile(r"`[^`\n]*`")


def read(path):
    with open(path, encoding="utf-8") as f:
        return f.read()


def names():
    """The names to turn, and those that records declare as fields."""
    found, fields = set(), set()
    for path in glob.glob("crates/*/specs/**/*.antt", recursive=True) + glob.glob("crates/*/proofs/**/*.antt", recursive=True):
        record = False
        for line in read(path).splitlines():
            if line.lstrip().startswith("--"):
                continue
            if re.match(r"\s*(?:pub\s+)?record\s+\S", line):
                record = True
            elif line and not line[0].isspace():
                record = False
            m = DECLARED.match(line)
            if not m or not HYPHEN.search(m.group(1)) or GOAL.match(m.group(2) or ""):
                continue
            found.add(m.group(1))
            if record:
                fields.add(m.group(1))
    return found, fields


def turned(text, table, fields):
    def one(m):
        word, at = m.group(0), m.start()
        if word not in table:
            return word
        if at and text[at - 1] == ".":
            head = re.search(r"([^\s(){};,@\"«»\[\]\\`]*)\.$", text[:at])
            last = head.group(1).split(".")[-1] if head else ""
            if not last[:1].isupper() and word not in fields:
                return word
        return table[word]

    return TOKEN.sub(one, text)


def in_antt(text, table, fields):
    out = []
    for line in text.split("\n"):
        code, mark, comment = line, "", ""
        m = re.search(r"(?:^|\s)--(?:\s|$)", line)
        if m:
            code, comment = line[: m.start()], line[m.start() :]
        out.append(turned(code, table, fields) + in_spans(comment, table, fields))
    return "\n".join(out)


def in_spans(text, table, fields):
    return SPAN.sub(lambda m: turned(m.group(0), table, fields), text)


def in_source(text, table, fields):
    out = []
    for line in text.split("\n"):
        m = re.search(r"(?:^|\s)//", line)
        code, comment = (line[: m.start()], line[m.start() :]) if m else (line, "")
        parts = re.split(r"(\"(?:[^\"\\]|\\.)*\")", code)
        code = "".join(p if i % 2 else turned(p, table, fields) for i, p in enumerate(parts))
        out.append(code + in_spans(comment, table, fields))
    return "\n".join(out)


def in_edit(text, table, fields):
    def line(l):
        m = re.match(r"(old|new): ", l)
        return l[: m.end()] + in_source(l[m.end() :], table, fields) if m else l

    return "\n".join(line(l) for l in text.split("\n"))


def promises():
    """Renames specs/Contracts.antt, and the paths that name it."""
    moved = [p for p in sorted(glob.glob("crates/*/specs/Contracts.antt"))]
    for path in moved:
        os.rename(path, path.replace("Contracts", "Promises"))
        crate = path.split("/")[1]
        old, new = f"Rattle.{crate}.specs.Contracts", f"Rattle.{crate}.specs.Promises"
        for file in glob.glob("crates/*/*/**/*.antt", recursive=True) + glob.glob("crates/*/src/*.rt"):
            text = read(file)
            if old in text:
                with open(file, "w", encoding="utf-8") as f:
                    f.write(text.replace(old, new))
        lib = f"crates/{crate}/specs/Lib.antt"
        text = read(lib).replace("mod Contracts\n", "mod Promises\n")
        with open(lib, "w", encoding="utf-8") as f:
            f.write(text)
    return len(moved)


def main():
    found, fields = names()
    table = {n: OTHERWISE.get(n, re.sub(r"(?<=[^\W_])-(?=[^\W_])", "_", n)) for n in found}
    met = collections.defaultdict(set)
    for old, new in table.items():
        met[new].add(old)
    bad = [" ".join(sorted(o)) for o in met.values() if len(o) > 1]
    files = [(p, in_antt) for p in sorted(glob.glob("crates/*/*/**/*.antt", recursive=True))]
    files += [(p, in_source) for p in sorted(glob.glob("crates/*/src/*.rt"))]
    files += [(p, in_edit) for p in sorted(glob.glob("crates/*/must-fail/*.edit"))]
    files += [(p, in_spans) for p in ["README.md", "host/README.md", *sorted(glob.glob("docs/*.md"))]]
    texts = [(p, read(p), turn) for p, turn in files]
    for path, text, _ in texts:
        if path.endswith(".antt"):
            plain = re.sub(r"(?m)(^|\s)--.*$", "", text)
            words = {m.group(0) for m in TOKEN.finditer(plain) if plain[m.start() - 1 : m.start()] != "." and plain[m.end() : m.end() + 1] != "."}
            bad += [f"{path}: {o} {table[o]}" for o in sorted(words & set(table) - FIELDS) if table[o] in words]
    if bad:
        print("\n".join(bad))
        return 1
    for path, text, turn in texts:
        new = turn(text, table, fields)
        if new != text:
            with open(path, "w", encoding="utf-8") as f:
                f.write(new)
    print(f"{len(table)} names, {promises()} files")
    return 0


if __name__ == "__main__":
    sys.exit(main())
