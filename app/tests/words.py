"""The words of the program against docs/PROCEDURES.md: every cell that both have is the same.

words.py PROGRAM FOLDER
"""

import json
import os
import re

import common
from common import check, run, same

PROJECT = os.path.join(common.HERE, "..", "..")


def rows(text):
    """The cells of the rows of a table that begin with a number."""
    for line in text.splitlines():
        if re.match(r"\| [0-9]+ \|", line):
            yield [cell.strip() for cell in line.strip().strip("|").split("|")]


def main():
    program, _, _ = common.arguments("")
    with open(os.path.join(PROJECT, "app", "words.json")) as file:
        words = json.load(file)
    with open(os.path.join(PROJECT, "docs", "PROCEDURES.md")) as file:
        procedures, refusals = file.read().split("## The refusals")

    for part, listed, keys, count in [
        (procedures, words["procedures"], ["number", "asks", "printed", "found", "table", "merge"], 38),
        (refusals, words["refusals"], ["number", "says", "value"], 13),
    ]:
        table = list(rows(part))
        same(len(table), count, "rows of the table")
        for cells, said in zip(table, listed):
            same(cells[: len(keys)], [str(said[key]) for key in keys], f"docs/PROCEDURES.md, number {cells[0]}")
            prefix = "r" if listed is words["refusals"] else ""
            answer = run(program, "explain", f"{prefix}{said['number']}")
            text = " ".join(" ".join(answer.lines).split())
            check(answer.status == 0 and all(said[key] in text for key in keys[1:2] + ["todo"]), f"explain {prefix}{said['number']}: {answer}")

    for asked in ["0", "39", "r0", "r14", "-1", "+5", "x", "", "1 2 3", "refusal", "r", "99999999999", "\x1b[2J"]:
        answer = run(program, "explain", *asked.split(" "))
        check(answer.status == 3 and len(answer.complaints) == 1 and not answer.lines, f"explain {asked!r}: {answer}")
        check(b"\x1b" not in answer.raw, f"explain {asked!r} shows it raw")
    common.end("words")


main()
