#!/usr/bin/env python3
"""Spells the repository's own definitions and lemmas in snake case: `isDigit` and `is-digit` become `is_digit`.

usage: tools/respell.py [FOLDER]    at the top of a repository, whose files are rewritten in place

A name is the repository's own where a file of specs/ or proofs/ declares it and the file at hand does not import it from elsewhere. Types, modules
(upper camel case), the names of goals, functions, strings and comments keep their spelling; in a comment or a page a name between backticks is
turned. Where a lemma would have the name of a definition, it gets `_lem`. Where two names would fall together in one file all the same, both are named.
"""

import glob
import os
import re
import sys

DECLARED = re.compile(r"^\s*(?:(?:abbrev|unfoldable|pub)\s+)*([^\s:(){},;.\"`]+)\s*:\s")
TOKEN = re.compile(r"[^\s(){}\[\],;.\"`⌜⌝]+")
OTHER_IMPORT = re.compile(r"^\s*(?:pub\s+|ghost\s+)?use\s+(?!Rattle\.({own})\.)[\w·.]+\.\{{([^}}]*)\}}", re.M)


# lemmas that have in snake case, or already had, the name that a definition gets
LEMMAS = {
    "judge_below/proofs/Looking": ["first_one"],
    "judge_header/proofs/Holds": ["code_is"],
    "judge_promises/proofs/Numbered": ["is_read"],
    "program_exports/proofs/Told": ["in-scratch"],
    "sort_compare/proofs/Ordering": ["in_order"],
    "table_join/proofs/Decimal": ["is_digit"],
    "table_join/proofs/Rows": ["rows_end", "rows-at"],
    "table_join/proofs/Sections": ["count-of"],
    "xml_agreement/proofs/Agreement": ["place-in"],
    "xml_agreement/proofs/Tags": ["tag_in"],
}


def snake(name):
    if not re.fullmatch(r"[a-z][A-Za-z0-9_'-]*", name):
        return name
    name = re.sub(r"([a-z0-9])([A-Z])", lambda m: m.group(1) + "_" + m.group(2).lower(), name)
    return re.sub(r"[A-Z]", lambda m: m.group(0).lower(), name).replace("-", "_")


def read(path):
    with open(path, encoding="utf-8") as f:
        return f.read()


def declared(root):
    names = set()
    for path in glob.glob(os.path.join(root, "crates/*/specs/*.antt")) + glob.glob(os.path.join(root, "crates/*/proofs/*.antt")):
        for line in read(path).split("\n"):
            m = DECLARED.match(line)
            if m and not line.lstrip().startswith("--"):
                names.add(m.group(1))
    table = {n: snake(n) for n in names if snake(n) != n}
    taken = {n for o, n in table.items() if "-" not in o}
    return {o: n + "_lem" if "-" in o and n in taken else n for o, n in table.items()}


def lemmas(text, path):
    """The lemmas of LEMMAS that this file declares or imports, with their names."""
    turn = {}
    for where, names in LEMMAS.items():
        crate, _, module = where.split("/")
        brought = re.findall(r"use Rattle\.%s\.proofs\.%s\.\{([^}]*)\}" % (crate, module), text)
        here = set(re.split(r"[,\s]+", " ".join(brought)))
        if path.endswith("crates/%s.antt" % where):
            here = set(names)
        turn.update({n: n.replace("-", "_") + "_lem" for n in names if n in here})
    return turn


def functions(root):
    found = set()
    for path in glob.glob(os.path.join(root, "crates/*/src/**/*.rt"), recursive=True):
        found |= set(re.findall(r"\bfn\s+(\w+)", read(path)))
    return found


def words(text, turn):
    return TOKEN.sub(lambda m: turn.get(m.group(0), m.group(0)), text)


def ticked(text, turn):
    return re.sub(r"`[^`\n]+`", lambda m: words(m.group(0), turn), text)


def antt(text, turn):
    lines = []
    for line in text.split("\n"):
        at = re.search(r"(^|\s)--(\s|$)", line)
        code, rest = (line[: at.start()], line[at.start() :]) if at else (line, "")
        lines.append(words(code, turn) + ticked(rest, turn))
    return "\n".join(lines)


def rust(text, turn):
    parts = re.split(r"(//[^\n]*|b?\"(?:\\.|[^\"\\])*\"|b?'(?:\\.|[^'\\\n])')", text)
    return "".join(ticked(p, turn) if p.startswith("//") else p if i % 2 else words(p, turn) for i, p in enumerate(parts))


def edit(text, turn):
    source = re.search(r"^file: (\S+)", text, re.M)
    how = rust if source and source.group(1).endswith(".rt") else antt
    return "\n".join(l if not re.match(r"(old|new): ", l) else l[:5] + how(l[5:], turn) for l in text.split("\n"))


def main(argv):
    root = argv[0] if argv else "."
    own = sorted(os.path.basename(c) for c in glob.glob(os.path.join(root, "crates/*")))
    elsewhere = re.compile(OTHER_IMPORT.pattern.replace("{own}", "|".join(own)).replace("{{", "{").replace("}}", "}"), re.M)
    table, specs = declared(root), {f.replace("_", "-") + "-spec": f + "_spec" for f in functions(root)}
    out, clash = {}, []
    paths = glob.glob(os.path.join(root, "crates/*/*/**/*.antt"), recursive=True) + glob.glob(os.path.join(root, "crates/*/src/**/*.rt"), recursive=True)
    paths += glob.glob(os.path.join(root, "crates/*/must-fail/*.edit")) + glob.glob(os.path.join(root, "docs/*.md")) + glob.glob(os.path.join(root, "*.md"))
    for path in sorted(p for p in paths if "/out/" not in p):
        text = read(path)
        foreign = {w.strip() for m in elsewhere.finditer(text) for w in re.split(r"[,\s]+", m.group(2))}
        made = {n for m in re.finditer(r"(?:Need|Goal|goal|tie)[-.]([^\s(){},;]+)", text) for n in [m.group(1)]}
        in_function = re.search(r"/proofs/[^/]+/", path)
        turn = {o: n for o, n in table.items() if o not in foreign and not (in_function and o in made)}
        turn.update(specs)
        turn.update(lemmas(text, path))
        how = antt if path.endswith(".antt") else rust if path.endswith(".rt") else edit if path.endswith(".edit") else ticked
        there = set(re.findall(r"(?<![\w.'-])[^\s(){}\[\],;.\"`⌜⌝]+(?![\w.'-])", re.sub(r"--[^\n]*|//[^\n]*", "", text)))
        if path.endswith(".rt"):
            there = {n for n in there if n not in turn.values() or re.search(r"(\(|, )%s: |let (mut )?%s\b" % (n, n), text)}
        for o in there & set(turn):
            if turn[o] in there - set(turn) and path.endswith((".antt", ".rt")):
                clash.append((os.path.relpath(path, root), o, turn[o]))
        new = how(text, turn)
        if new != text:
            out[path] = new
    for row in sorted(clash):
        print("clash: %s: %s would be %s, which stands there" % row)
    names = {}
    for o, n in table.items():
        names.setdefault(n, []).append(o)
    for n, olds in sorted(names.items()):
        if len(olds) > 1:
            print("together: %s from %s" % (n, " ".join(sorted(olds))))
    if "--dry" in sys.argv:
        return 0
    for path, text in out.items():
        with open(path, "w", encoding="utf-8") as f:
            f.write(text)
    print("%d names, %d files" % (len(table), len(out)))
    return 0


if __name__ == "__main__":
    raise SystemExit(main([a for a in sys.argv[1:] if a != "--dry"]))
