"""What the tests of the store and the page share: running the program, and counting what passed."""

import json
import os
import sqlite3
import struct
import subprocess
import sys

HERE = os.path.dirname(os.path.abspath(__file__))
EXAMPLES = os.path.join(HERE, "..", "examples")

passed = failed = 0


def check(holds, what):
    """One assertion. `what` says what does not hold, where it does not."""
    global passed, failed
    if holds:
        passed += 1
    else:
        failed += 1
        print(f"FAILED: {what}", flush=True)
    return holds


def same(got, expected, what):
    return check(got == expected, f"{what}: got {got!r}, expected {expected!r}")


def end(of):
    print(f"{of}: {passed} passed, {failed} failed", flush=True)
    sys.exit(1 if failed else 0)


def arguments(usage):
    """The program, a folder of its own, and what else the usage line names."""
    if len(sys.argv) < 3:
        sys.exit(f"usage: {sys.argv[0]} PROGRAM FOLDER {usage}")
    folder = os.path.abspath(sys.argv[2])
    os.makedirs(folder, exist_ok=True)
    return os.path.abspath(sys.argv[1]), folder, sys.argv[3:]


class Answer:
    def __init__(self, done):
        self.status = done.returncode
        self.lines = done.stdout.decode("utf-8", "surrogateescape").splitlines()
        self.complaints = done.stderr.decode("utf-8", "surrogateescape").splitlines()
        self.raw = done.stdout + done.stderr

    def __repr__(self):
        return f"status {self.status}, {self.lines[-3:]}, {self.complaints[-3:]}"


def run(program, *words, **options):
    options.setdefault("env", {**os.environ, "TZ": "UTC"})
    options.setdefault("timeout", 600)
    return Answer(subprocess.run([program, *words], stdout=subprocess.PIPE, stderr=subprocess.PIPE, stdin=subprocess.DEVNULL, **options))


def one_line(answer, status, part, what):
    """Trouble is one line on standard error and a status, and nothing on standard output."""
    holds = answer.status == status and len(answer.complaints) == 1 and part in answer.complaints[0] and not answer.lines
    check(holds, f"{what}: {answer}")


def verdicts(store):
    """What a store says of each draft: `found 21,3,4 ..`, `refused 7 212` or `unread`, by the draft's name."""
    with sqlite3.connect(store) as database:
        rows = database.execute(
            "SELECT draft.name, unread, refusal, place, findings FROM draft LEFT JOIN verdict ON verdict.name = draft.name"
        ).fetchall()
    database.close()
    answers = {}
    for name, unread, refusal, place, findings in rows:
        if unread is not None:
            answers[bytes(name)] = "unread"
        elif refusal is not None:
            answers[bytes(name)] = f"refused {refusal} {place}"
        else:
            triples = ["%d,%d,%d" % triple for triple in struct.iter_unpack("<III", findings)]
            answers[bytes(name)] = " ".join(["found", *triples])
    return answers


def dump(store, times=True):
    """All that a store has; without the times, two runs that did the same have the same."""
    when = ", taken" if times else ""
    database = sqlite3.connect(store)
    try:
        lines = [("pragma", *database.execute("PRAGMA application_id").fetchone(), *database.execute("PRAGMA user_version").fetchone())]
        lines += [("integrity", *row) for row in database.execute("PRAGMA integrity_check")]
        lines += database.execute(f"SELECT 'file', number, digest, name, bytes{when} FROM file ORDER BY number").fetchall()
        lines += database.execute("SELECT 'draft', name, digest, length, unread, bytes FROM draft ORDER BY name").fetchall()
        lines += database.execute("SELECT 'verdict', name, digest, files, refusal, place, findings FROM verdict ORDER BY name").fetchall()
        if times:
            lines += database.execute("SELECT 'store', touched FROM store").fetchall()
    except sqlite3.DatabaseError as error:
        lines = [("damaged", str(error))]
    database.close()
    return lines


def short(number):
    """What the program says in one line where a procedure is broken."""
    with open(os.path.join(HERE, "..", "words.json")) as file:
        return next(words["short"] for words in json.load(file)["procedures"] if words["number"] == number)


def bytes_of(path):
    with open(path, "rb") as file:
        return file.read()
