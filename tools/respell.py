#!/usr/bin/env python3
"""Brings the repository's own names in contracts, definitions and proofs to one spelling: words in snake case, types in
upper camel case.

usage: respell.py [--check] [TOP]

It reads each file of specs/ and each file of lemmas in proofs/, takes the names with a dash that the repository itself
declares or binds, and writes them anew wherever they stand: in specs/ and proofs/, in the ghost text of src/ and in the
must-fail edits. Comments and strings keep their words, and so do names of the library and names that the checker makes.
Where two names of its own fall together it says so and writes nothing; a name whose new spelling stands already is kept.
"""
import glob
import os
import re
import sys

NAME = r"[A-Za-z][\w']*(?:-[\w']+)+"
TOKEN = re.compile(r"(?<![\w'\-◌])(" + NAME + r")(?![\w'\-◌≤<∷])")
MADE = re.compile(r"^(returns|loop|if|then|else|overflow|bounds|slice_bounds|offset_bounds|nonzero|invariant|invariant_of|decreases|in_ok|in_err|ghost|match|index|prove)(-|_)|^in-[A-Z]|-(init|preserved|smaller|requires)(-\d+)?$")
USE = re.compile(r"\buse ([\w.+·«»]+)\.\{([^}]*)\}")


def own(path, crates):
    return any(path.startswith(f"Rattle.{c}.") or path.startswith(f"Rattle·{c}") for c in crates)


def code_of(line, comment):
    """The line's code and its comment."""
    found = re.search(r"(^|\s)" + comment, line)
    return (line[: found.start()], line[found.start() :]) if found else (line, "")


def spelled(name):
    parts = name.split("-")
    if name[0].isupper():
        return "".join(p[0].upper() + p[1:] for p in parts)
    return "_".join(parts)


def files(top, *kinds):
    return sorted(f for k in kinds for f in glob.glob(f"{top}/crates/*/{k}", recursive=True) if "/out/" not in f)


def main():
    args = sys.argv[1:]
    check = "--check" in args
    top = ([a for a in args if a != "--check"] or ["."])[0]
    crates = [os.path.basename(c) for c in glob.glob(f"{top}/crates/*")]
    antt = files(top, "specs/**/*.antt", "proofs/**/*.antt")
    answers = [f for f in antt if os.path.basename(f) in ("Answers.antt", "Invariants.antt", "Proof.antt")]
    lemmas = [f for f in antt if f not in answers]
    table, foreign = {}, {}
    for f in antt:
        text = open(f, encoding="utf-8").read()
        foreign[f] = {
            n.strip().split(" as ")[-1]
            for path, names in USE.findall(text) if not own(path, crates)
            for n in names.split(",")
        }
    for f in lemmas:
        for line in open(f, encoding="utf-8"):
            for n in TOKEN.findall(code_of(line, "--")[0]):
                if n not in foreign[f] and not MADE.search(n):
                    table[n] = spelled(n)
    for f in answers:
        for line in open(f, encoding="utf-8"):
            m = re.match(r"(?:pub )?(" + NAME + r") :(?! goal\.)", line)
            if m and not MADE.search(m[1]):
                table[m[1]] = spelled(m[1])
    # names that would fall together
    seen, bad = {}, []
    plain = set()
    for f in lemmas:
        for line in open(f, encoding="utf-8"):
            plain |= set(re.findall(r"(?<![\w'\-])([A-Za-z][\w']*)(?![\w'\-])", code_of(line, "--")[0]))
    for old, new in sorted(table.items()):
        if new in seen and seen[new] != old:
            bad.append(f"{old} and {seen[new]} are both {new}")
        if new in plain:
            print(f"kept: {old}, since {new} stands already")
            del table[old]
        seen[new] = old
    for b in bad:
        print("look:", b)
    if bad:
        sys.exit(1)
    if check:
        for old, new in sorted(table.items()):
            print(old, new)
        return

    def turn(code, skip):
        return TOKEN.sub(lambda m: m[1] if m[1] in skip else table.get(m[1], m[1]), code)

    for f in antt:
        lines = []
        for line in open(f, encoding="utf-8"):
            code, comment = code_of(line, "--")
            lines.append(turn(code, foreign[f]) + comment)
        open(f, "w", encoding="utf-8").write("".join(lines))
    for f in files(top, "src/**/*.rt"):
        lines = []
        for line in open(f, encoding="utf-8"):
            code, comment = code_of(line, "//")
            parts = re.split(r'("(?:[^"\\]|\\.)*")', code)
            parts[::2] = [turn(p, ()) for p in parts[::2]]
            lines.append("".join(parts) + comment)
        open(f, "w", encoding="utf-8").write("".join(lines))
    for f in files(top, "must-fail/*.edit"):
        text = open(f, encoding="utf-8").read()
        if "file: specs/" in text:
            open(f, "w", encoding="utf-8").write(turn(text, ()))


main()
