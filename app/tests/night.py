"""`night`, `add` and `verify`: what they print, what they keep, and what they do with bad files, names, stores and disks.

night.py PROGRAM FOLDER
"""

import os
import random
import re
import resource
import shutil
import signal
import sqlite3
import subprocess
import threading

import common
from common import check, one_line, run, same

LIMIT = 1_048_576


class Bench:
    """A folder with the example night, and a store in it."""

    def __init__(self, program, folder, name):
        self.program, self.folder = program, os.path.join(folder, name)
        shutil.rmtree(self.folder, ignore_errors=True)
        shutil.copytree(common.EXAMPLES, self.folder)
        self.store = self.path("store")

    def path(self, *parts):
        return os.path.join(self.folder, *parts)

    def write(self, name, content):
        with open(self.path(name), "wb") as file:
            file.write(content if isinstance(content, bytes) else content.encode())
        return name

    def run(self, *words, **options):
        return run(self.program, *words, cwd=self.folder, **options)

    def night(self, *paths, tables="tables.txt", **options):
        return self.run("night", "--store", "store", "--tables", tables, *(paths or ["drafts"]), **options)

    def add(self, rows, **options):
        return self.run("add", "--store", "store", rows, **options)

    def verify(self, what):
        answer = self.run("verify", "--store", "store")
        check(answer.status == 0 and answer.lines[-1].endswith(": no difference") and not answer.complaints, f"{what}: verify: {answer}")

    def kept(self, what, run_it):
        """Runs something that must leave the store as it is, byte for byte."""
        before = common.bytes_of(self.store)
        answer = run_it()
        check(common.bytes_of(self.store) == before, f"{what}: the store is another")
        same([name for name in os.listdir(self.folder) if name.startswith("store-")], [], f"{what}: files beside the store")
        return answer


def printed(bench):
    """The example night, whole: the draft that was clean and is not after one row more."""
    answer = bench.night()
    same(answer.lines, [
        "drafts/marsh-request.xml:15:15: refused 7 not well formed",
        "drafts/oslo-works-registration.xml: broken (4 findings)",
        "drafts/pine-street-registration.xml: broken (1 finding)",
        "5 drafts: 2 clean, 2 with 5 findings, 1 refused",
    ], "night")
    same((answer.status, answer.complaints), (2, []), "night")
    same(common.verdicts(bench.store)[b"drafts/copper-kettle-request.xml"], "found", "the draft before the row")
    answer = bench.add("later.txt")
    same(answer.lines, [
        "drafts/copper-kettle-request.xml: was clean, now broken (1 finding)",
        f"    new at 14:9: 21 {common.short(21)}",
        "drafts/pine-street-registration.xml: was broken (1 finding), now clean",
        f"    gone at 32:17: 18 {common.short(18)}",
        "2 drafts changed: 1 new finding, 1 gone; 3 as before",
    ], "add")
    same((answer.status, answer.complaints), (1, []), "add")
    bench.verify("after add")

    answer = bench.kept("the same rows again", lambda: bench.add("later.txt"))
    check(re.fullmatch(r"these rows are in the store already, since \d{4}-\d\d-\d\d \d\d:\d\d as later.txt: nothing was changed", answer.lines[0]) and answer.status == 0, f"{answer}")
    shutil.copy(bench.path("later.txt"), bench.path("copy.txt"))
    same(bench.kept("the same rows under another name", lambda: bench.add("copy.txt")).status, 0, "a copy of the rows")
    same(bench.kept("the night's tables", lambda: bench.add("tables.txt")).status, 0, "the night's tables as rows")
    bench.write("nothing.txt", "0\n0\n0\n")
    same(bench.add("nothing.txt").lines, ["no draft changed; 5 as before"], "no rows")
    answer = bench.kept("verify", lambda: bench.run("verify", "--store", "store"))
    same(answer.lines, ["5 drafts judged afresh under 3 tables files: no difference"], "verify")


def again(bench):
    """A second night: under the same tables what was added still counts and what did not change is kept; under others it is all anew."""
    bench.night()
    bench.add("later.txt")
    os.remove(bench.path("drafts", "oslo-works-registration.xml"))
    shutil.copy(bench.path("drafts", "copper-kettle-request.xml"), bench.path("drafts", "zinc-request.xml"))
    mended = common.bytes_of(bench.path("drafts", "marsh-request.xml")).replace(b"Marsh & Daughter", b"Marsh &amp; Daughter")
    bench.write("drafts/marsh-request.xml", mended)
    answer = bench.night()
    same(answer.lines, [
        "drafts/copper-kettle-request.xml: broken (1 finding)",
        "drafts/marsh-request.xml: broken (1 finding), was refused 7 at 706",
        "drafts/zinc-request.xml: broken (1 finding)",
        "5 drafts: 2 clean, 3 with 3 findings",
        "since the last night: 1 new, 1 judged afresh, 3 as before, 1 no longer there",
    ], "the second night")
    same(answer.status, 1, "the second night")
    bench.verify("the second night")
    answer = bench.night(tables="later.txt")
    same(answer.lines[0], "the tables are new: what was added to the last ones no longer counts: later.txt", "new tables")
    same(answer.lines[-1], "since the last night: 0 new, 5 judged afresh, 0 as before, 0 no longer there", "new tables")
    bench.verify("new tables")
    answer = bench.night()
    same(answer.lines[:2], ["drafts/bramble-request.xml: clean, was broken (2 findings)", "drafts/copper-kettle-request.xml: clean, was broken (3 findings)"], "the old tables")
    answer = bench.night("drafts", "drafts/bramble-request.xml", "drafts/../drafts")
    check(answer.lines[-2].startswith("10 drafts:"), f"a draft that is named twice is one draft, under two paths two: {answer}")
    os.mkdir(bench.path("none"))
    one_line(bench.kept("no drafts", lambda: bench.night("none")), 3, "no draft", "a night without drafts")
    one_line(bench.kept("a wrong name", lambda: bench.night("drfts")), 3, "drfts: cannot be read: No such file or directory (os error 2): nothing was changed", "a wrong name")


def refused(bench):
    """Rows and tables that are refused, or not there, change nothing."""
    bench.night()
    for content, part in [("0\n0\n1\n51726-8\tx\t1\td\n", "bad.txt:4: "), ("", "bad.txt:1: "), ("0\n0\n0", "bad.txt:3: "), (b"0\n0\n0\n" + b"x" * LIMIT, "bad.txt: ")]:
        bench.write("bad.txt", content)
        one_line(bench.kept("refused rows", lambda: bench.add("bad.txt")), 2, part, "refused rows")
        one_line(bench.kept("refused tables", lambda: bench.night(tables="bad.txt")), 2, part, "refused tables")
    for name in ["none.txt", "drafts"]:
        one_line(bench.kept(name, lambda: bench.add(name)), 3, f"{name}: cannot be read", f"rows {name}")
        one_line(bench.kept(name, lambda: bench.night(tables=name)), 3, f"{name}: cannot be read", f"tables {name}")
    row = "51726-8\t{}\t1\td\t1234\n"
    bench.write("many.txt", "0\n0\n65534\n" + "".join("1\t2\t3\t4\t5\n" for _ in range(65534)))
    one_line(bench.kept("too many rows", lambda: bench.add("many.txt")), 2, "the history would have 65536 rows", "too many rows")
    long = "0\n0\n250\n" + "".join(row.format("s" * 4000) for _ in range(250))
    bench.write("long.txt", long)
    bench.write("longer.txt", long.replace("1234", "4321"))
    same(bench.add("long.txt").status, 0, "long rows")
    one_line(bench.kept("too many bytes", lambda: bench.add("longer.txt")), 2, "over the limit of 1048576", "too many bytes")
    bench.verify("after all that was refused")


def drafts_as_they_come(bench):
    """Drafts that cannot be read, are too long, or have names of any bytes."""
    os.symlink("nowhere", bench.path("drafts", "gone.xml"))
    answer = bench.night()
    same(answer.complaints, ["drafts/gone.xml: cannot be read: No such file or directory (os error 2)"], "a draft that cannot be read")
    same((answer.status, answer.lines[-1]), (3, "6 drafts: 2 clean, 2 with 5 findings, 1 refused, 1 not read"), "the others")
    same(common.verdicts(bench.store)[b"drafts/gone.xml"], "unread", "what is kept of it")
    same(bench.add("later.txt").lines[-1], "2 drafts changed: 1 new finding, 1 gone; 4 as before", "add beside it")
    answer = bench.run("verify", "--store", "store")
    same((answer.status, answer.lines[0]), (0, "1 draft without a verdict, since the night could not read it"), "verify beside it")
    os.remove(bench.path("drafts", "gone.xml"))
    shutil.copy(bench.path("drafts", "bramble-request.xml"), bench.path("drafts", "gone.xml"))
    same(bench.night().lines[-1], "since the last night: 0 new, 1 judged afresh, 5 as before, 0 no longer there", "it can be read again")

    bench.write("drafts/long.xml", b" " * (LIMIT + 7))
    answer = bench.night()
    check(any(line == f"drafts/long.xml: refused 1 the draft is too long: {LIMIT + 7} bytes, over the limit of {LIMIT}" for line in answer.lines), f"a draft that is too long: {answer.lines}")
    same(common.verdicts(bench.store)[b"drafts/long.xml"], f"refused 1 {LIMIT + 7}", "a draft that is too long")
    bench.verify("a draft that is too long")
    bench.write("more.txt", "0\n1\n1\t2\n0\n")
    same(bench.add("more.txt").lines, ["no draft changed; 7 as before"], "add beside a draft that is too long")
    same(bench.night().lines[-1], "since the last night: 0 new, 0 judged afresh, 7 as before, 0 no longer there", "it is the same")
    bench.write("drafts/long.xml", b" " * (LIMIT + 8))
    same(bench.night().lines[-1], "since the last night: 0 new, 1 judged afresh, 6 as before, 0 no longer there", "it grew by one byte behind what is kept")
    same(common.verdicts(bench.store)[b"drafts/long.xml"], f"refused 1 {LIMIT + 8}", "it grew")
    bench.verify("it grew")

    names = [b"new\nline.xml", b"\x1b[2J\x07.xml", b"not\xffutf8.xml", "\u202eright.xml".encode(), b"-rf.xml", b"=1+1.xml", b"'; DROP TABLE draft; --.xml", b"\xe2\x82.xml", b" .xml"]
    shutil.rmtree(bench.path("drafts"))
    os.mkdir(bench.path("drafts"))
    for name in names:
        shutil.copy(os.path.join(common.EXAMPLES, "drafts", "copper-kettle-request.xml").encode(), os.path.join(os.fsencode(bench.path("drafts")), name))
    for answer in [bench.night(), bench.night(tables="later.txt"), bench.add("tables.txt"), bench.run("verify", "--store", "store")]:
        check(not re.search(rb"[\x00-\x09\x0b-\x1f\x7f]|\xff|\xe2\x82\.|\xe2\x80\xae", answer.raw), f"raw bytes on the terminal: {answer.raw}")
        check(answer.status < 2 and len(answer.complaints) == 0, f"names of any bytes: {answer}")
    same(set(common.verdicts(bench.store)), {b"drafts/" + name for name in names}, "names of any bytes")
    bench.verify("names of any bytes")


def commands(bench):
    return [
        ("night", lambda: bench.night()),
        ("add", lambda: bench.add("later.txt")),
        ("verify", lambda: bench.run("verify", "--store", "store")),
        ("wall", lambda: bench.run("wall", "--store", "store", "--out", "page.html")),
    ]


def stores(bench):
    """What is no store, or one of another version, is left alone."""
    def each(part, of=commands(bench)):
        for name, command in of:
            one_line(bench.kept(f"{name}: {part}", command), 3, part, f"{name}: {part}")

    bench.night()
    with sqlite3.connect(bench.store) as database:
        database.execute("PRAGMA user_version = 2")
    database.close()
    each("has version 2; this program knows version 1")
    bench.write("store", "This is a letter, and no store.\n" * 100)
    each("store is no store of benchdowel")
    os.remove(bench.store)
    with sqlite3.connect(bench.store) as database:
        database.execute("CREATE TABLE letters (text)")
    database.close()
    each("store is no store of benchdowel")
    bench.write("store", "")
    each("is empty and no store yet", commands(bench)[1:])
    same(bench.night().status, 2, "a night into an empty file")
    bench.verify("a night into an empty file")
    os.remove(bench.store)
    for name, command in commands(bench)[1:]:
        one_line(command(), 3, "there is no store store", f"{name} of nothing")
        check(not os.path.exists(bench.store), f"{name} made a store")
    os.mkdir(bench.store)
    for name, command in commands(bench):
        one_line(command(), 3, "the store store ", f"{name} of a folder")
    os.rmdir(bench.store)
    one_line(bench.run("night", "--store", "no/store", "--tables", "tables.txt", "drafts"), 3, "cannot be opened", "a folder that is not there")
    for name in [":memory:", "file:x?mode=memory", "-s", "%s", "\u202es"]:
        answer = bench.run("night", f"--store={name}", "--tables", "tables.txt", "drafts")
        check(answer.status == 2 and os.path.getsize(bench.path(name)) > 0, f"a store that is named {name!r}: {answer}")

    bench.night()
    holder = sqlite3.connect(bench.store, isolation_level=None)
    holder.execute("BEGIN IMMEDIATE")
    one_line(bench.add("later.txt"), 3, "is in use by another run", "a store that another run writes")
    holder.execute("ROLLBACK")
    holder.close()

    # A reader that takes longer than that is waited for: what was judged is not given up.
    reader = sqlite3.connect(bench.store, isolation_level=None, check_same_thread=False)
    reader.execute("BEGIN")
    reader.execute("SELECT count(*) FROM draft").fetchone()
    timer = threading.Timer(13, reader.close)
    timer.start()
    same(bench.add("later.txt").status, 1, "a store that another run reads")
    timer.join()


def damaged(bench):
    """Whatever stands in a store, a command ends with a status and says why."""
    bench.night()
    bench.add("later.txt")
    whole = common.bytes_of(bench.store)
    for statement, part in [
        ("UPDATE draft SET bytes = bytes || x'20'", "is damaged"),
        ("UPDATE draft SET digest = zeroblob(32)", "is not the one that was taken in"),
        ("UPDATE file SET digest = zeroblob(32) WHERE number = 1", "are not those that were taken in"),
        ("DELETE FROM verdict", "has no verdict"),
        ("UPDATE verdict SET findings = x'00' WHERE refusal IS NULL", "is no verdict"),
        ("UPDATE verdict SET findings = zeroblob(12) WHERE refusal IS NULL", "has the verdict of another"),
        ("UPDATE verdict SET digest = zeroblob(32)", "has the verdict of another"),
        ("DROP TABLE verdict", "no such table"),
        ("DELETE FROM file", "no tables"),
    ]:
        bench.write("store", whole)
        with sqlite3.connect(bench.store) as database:
            database.execute(statement)
        database.close()
        one_line(bench.kept(statement, lambda: bench.run("verify", "--store", "store")), 3, part, statement)
        bench.write("rows.txt", "0\n1\n1\t2\n0\n")
        one_line(bench.kept(statement, lambda: bench.add("rows.txt")), 3, "is damaged", f"add: {statement}")

    # A list that no check of this draft gives is not merged.
    bench.write("store", whole)
    with sqlite3.connect(bench.store) as database:
        database.execute("UPDATE verdict SET findings = ? WHERE name = ?", (bytes([1, 0, 0, 0, 0, 0, 0, 0, 4, 0, 0, 0]), b"drafts/bramble-request.xml"))
    database.close()
    one_line(bench.kept("a list of another draft", lambda: bench.add("rows.txt")), 3, "the list of drafts/bramble-request.xml is none of this draft", "a list of another draft")
    answer = bench.run("verify", "--store", "store")
    same((answer.status, answer.lines[:2]), (1, ["drafts/bramble-request.xml: broken (1 finding) in the store, clean judged afresh",
         f"    too many at 1:1: 1 {common.short(1)}"]), "verify of a list of another draft")

    dice = random.Random(1)
    tally = [0, 0, 0, 0]
    for number in range(120):
        spoilt = bytearray(whole)
        for _ in range(dice.choice([1, 4, 64])):
            spoilt[dice.randrange(len(spoilt))] = dice.randrange(256)
        if number % 5 == 0:
            spoilt = spoilt[: dice.randrange(len(spoilt))]
        bench.write("store", bytes(spoilt))
        for journal in [name for name in os.listdir(bench.folder) if name.startswith("store-")]:
            os.remove(bench.path(journal))
        name, command = commands(bench)[number % 4]
        answer = command()
        if check(0 <= answer.status <= 3 and b"fault in the program" not in answer.raw, f"{name} of spoilt store {number}: {answer}"):
            tally[answer.status] += 1
    check(tally[3] > 10, f"few spoilt stores were noticed: {tally}")


def full(bench):
    """A disk that is full: one line, and the store as it was."""
    for number in range(40):
        shutil.copy(bench.path("drafts", "oslo-works-registration.xml"), bench.path("drafts", f"{number}.xml"))
    rows = "0\n20000\n" + "".join(f"{number}\tname\n" for number in range(20000)) + "0\n"
    bench.write("rows.txt", rows)
    small = os.path.join(bench.folder, "small")
    os.mkdir(small)
    if subprocess.run(["mount", "-t", "tmpfs", "-o", "size=256k", "tmpfs", small], stderr=subprocess.DEVNULL).returncode == 0:
        try:
            store = os.path.join(small, "store")
            answer = bench.run("night", "--store", store, "--tables", "tables.txt", "drafts/bramble-request.xml")
            same(answer.status, 0, "a night on a small disk")
            before = common.bytes_of(store)
            for words in [["add", "--store", store, "rows.txt"], ["night", "--store", store, "--tables", "rows.txt", "drafts"]]:
                one_line(bench.run(*words), 3, "is full: the store is as it was", f"{words[0]} on a full disk")
                same(common.bytes_of(store), before, f"{words[0]} on a full disk: the store")
                same(bench.run("verify", "--store", store).status, 0, "verify after a full disk")
            new = os.path.join(small, "new")
            one_line(bench.run("night", "--store", new, "--tables", "rows.txt", "drafts"), 3, "is full", "a first night on a full disk")
            same(os.listdir(small), ["new", "store"] if os.path.exists(new) else ["store"], "what is left on a full disk")
            check(not os.path.exists(new) or os.path.getsize(new) == 0, "a store on a full disk")
        finally:
            subprocess.run(["umount", small], check=True)
    else:
        print("night: no small disk can be mounted here: only a limit on files is tried")

    same(bench.night().status, 2, "a night")
    before = common.dump(bench.store)
    size = os.path.getsize(bench.store)

    def little():
        signal.signal(signal.SIGXFSZ, signal.SIG_IGN)
        resource.setrlimit(resource.RLIMIT_FSIZE, (size + 8192, size + 8192))

    one_line(bench.add("rows.txt", preexec_fn=little), 3, "the store store ", "a limit on files")
    bench.verify("after a limit on files")
    same(common.dump(bench.store), before, "the store after a limit on files")
    same(bench.add("rows.txt").status, 0, "add with room")


def main():
    program, folder, _ = common.arguments("")
    for part in [printed, again, refused, drafts_as_they_come, stores, damaged, full]:
        part(Bench(program, folder, part.__name__))
    common.end("night")


main()
