#!/usr/bin/env python3
"""tools/places.py [--list]: counts (or lists) the places in crates/*/src that docs/DESIGN-PASS.md speaks of, point by point."""
import collections
import glob
import os
import re
import sys

os.chdir(os.path.join(os.path.dirname(os.path.abspath(__file__)), ".."))
FILES = {f: open(f, encoding="utf-8").read() for f in sorted(glob.glob("crates/*/src/*.rt"))}
LISTS = "--list" in sys.argv


def functions(text):
    """Yields the name, the parameters and the body of each function, without comments and clauses."""
    text = re.sub(r"//[^\n]*", "", text)
    for m in re.finditer(r"\bfn (\w+)", text):
        start = text.index("(", m.end())
        end, depth = start, 0
        while True:
            depth += {"(": 1, ")": -1}.get(text[end], 0)
            end += 1
            if not depth:
                break
        opening = re.compile(r"^ *\{$|(?<=[\w>)\]]) \{$", re.M).search(text, end)
        if not opening:
            continue
        stop, depth = opening.end() - 1, 0
        while stop < len(text):
            depth += {"{": 1, "}": -1}.get(text[stop], 0)
            stop += 1
            if not depth:
                break
        yield m.group(1), text[start + 1:end - 1], text[opening.end():stop - 1]


def shape(body):
    """A body with each name, number and string put in place of another of its kind, in the order in which they come."""
    seen = {}
    kept = {"if", "else", "while", "for", "in", "return", "let", "mut", "match", "continue", "true", "false", "as", "loop", "break"}

    def one(m):
        word = m.group(0)
        return word if word in kept else "n%d" % seen.setdefault(word, len(seen))
    return re.sub(r"\s+", " ", re.sub(r"b?\"(?:[^\"\\]|\\.)*\"|b?'(?:[^'\\]|\\.)+'|\w+", one, body)).strip()


def lines(pattern, which=lambda f: True):
    return [f"{f}:{text.count(chr(10), 0, m.start()) + 1} {m.group(0).strip()}" for f, text in FILES.items() if which(f) for m in re.finditer(pattern, text, re.M)]


def together(*parameters):
    """Functions that take all of these parameters."""
    return [f"{f} {name}" for f, text in FILES.items() for name, own, _ in functions(text) if all(re.search(p, own) for p in parameters)]


def twins():
    """Functions of five lines or more whose bodies have one shape."""
    by = collections.defaultdict(list)
    for f, text in FILES.items():
        for name, _, body in functions(text):
            if len([x for x in body.split("\n") if x.strip(" }")]) >= 5:
                by[shape(body)].append(f"{f} {name}")
    return [" ~ ".join(found) for found in by.values() if len(found) > 1]


PLACES = [
    ("1", "enums of the repository's own", lines(r"^(?:pub )?enum \w+")),
    ("1", "a refusal written as a number", lines(r"\b(?:Refused|Stopped)\([0-9]+")),
    ("1", "types that hold a refusal's number", lines(r"^    (?:Refused|Stopped)\(u32.*")),
    ("1", "constants that number kinds", lines(r"^(?:    )?pub const [A-Z_0-9]+: u32")),
    ("1", "a bool beside a value in a struct", lines(r"^    (?:pub )?\w+: bool,")),
    ("2", "functions of one shape (sets of them)", twins()),
    ("3", "loops by `while`", lines(r"^ *while ")),
    ("4", "early returns of `true` or `false`", lines(r"^ *return (?:true|false);")),
    ("5", "functions that take a document and its notes", together(r"document: &\[u8\]", r"notes: &\[u32\]")),
    ("5", "functions that take a section as two numbers", together(r"\bat: usize", r"\bcount: usize")),
    ("6", "loops that halve or search a sorted run by hand", lines(r"^ *while low < high")),
    ("6", "copies element by element", lines(r"^ *\w+\[\w+\] = \w+\[\w+\];")),
    ("7", "matches that choose what to run by a kind alone", lines(r"^ *match (?:q|by|form|wanted|test|property|kind|question) \{")),
    ("8", "answers to goals", [x for f in glob.glob("crates/*/proofs/**/Answers.antt", recursive=True) for x in re.findall(r"^pub .*", open(f, encoding="utf-8").read(), re.M)]),
]
for point, what, found in PLACES:
    print(f"{point}  {len(found):5}  {what}")
    if LISTS:
        for it in found:
            print(f"          {it}")
