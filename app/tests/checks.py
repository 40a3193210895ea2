"""`check` and `tables` on files of all kinds: statuses, order, hostile names, limits, pipes and terminals.

checks.py PROGRAM FOLDER
"""

import csv
import io
import json
import os
import pty
import re
import select
import shutil
import subprocess
import threading
import time
import urllib.parse

import common
from common import check, same

PROJECT = os.path.join(common.HERE, "..", "..")
EXAMPLES = os.path.join(PROJECT, "examples")
NO_ROWS = b"0\n0\n0\n"
LIMIT = 1_048_576
FORMS = ["human", "concise", "plain", "json", "sarif", "csv"]

CLEAN = common.bytes_of(os.path.join(EXAMPLES, "request.xml"))
TABLES = common.bytes_of(os.path.join(EXAMPLES, "tables.txt"))

# Names that a terminal, a spreadsheet or a reader of JSON could take for something else.
HOSTILE = [
    b"new\nline.xml", b"\x1b[31mred\x1b]0;title\x07.xml", b"bytes\xff\xfe.xml", "bidi\u202egnp.xml".encode(), b'quote"comma,.xml',
    b"=1+1.xml", b"+1.xml", b"-1.xml", b"@a.xml", b"a b%20c#d?e:f.xml", "\u00e9\u6f22.xml".encode(), b"tab\there.xml", b"back\\slash.xml",
    "c1\u009b2J.xml".encode(), b"<i>&amp;.xml",
]


class Folder:
    """A folder with files, in which the program is run."""

    def __init__(self, program, path):
        shutil.rmtree(path, ignore_errors=True)
        os.makedirs(path)
        self.program, self.path = program, path
        self.write("tables.txt", TABLES)
        self.write("none.txt", NO_ROWS)

    def at(self, name):
        return os.path.join(os.fsencode(self.path), os.fsencode(name))

    def write(self, name, content):
        os.makedirs(os.path.dirname(self.at(name)), exist_ok=True)
        with open(self.at(name), "wb") as file:
            file.write(content)

    def run(self, *words, **options):
        return common.run(self.program, *words, cwd=self.path, **options)

    def check(self, *words, tables="tables.txt", **options):
        return self.run("check", "--tables", tables, *words, **options)


def text(answer):
    return "\n".join(answer.lines)


def statuses(here):
    here.write("clean.xml", CLEAN)
    here.write("broken.xml", b"<a/>")
    here.write("refused.xml", b"<a>")
    for status, names in [(0, ["clean"]), (1, ["clean", "broken"]), (2, ["broken", "refused"]), (3, ["refused", "missing"])]:
        answer = here.check("--format", "concise", *[f"{name}.xml" for name in names])
        same(answer.status, status, f"the status of {names}")
    same(here.check("clean.xml").lines, ["clean.xml: clean", "1 draft: 1 clean"], "a clean draft")
    answer = here.check("clean.xml", "missing.xml", "clean.xml")
    same(answer.lines, ["clean.xml: clean", "clean.xml: clean", "3 drafts: 2 clean, 1 not read"], "the others are judged")
    same(answer.complaints, ["missing.xml: cannot be read: No such file or directory (os error 2)"], "a missing draft")

    common.one_line(here.check("clean.xml", tables="missing.txt"), 3, "missing.txt: cannot be read", "missing tables")
    common.one_line(here.check("clean.xml", tables="."), 3, ".: cannot be read", "a folder as tables")
    here.write("bad.txt", TABLES.replace(b"200000011\n", b"\n", 1))
    common.one_line(here.check("clean.xml", tables="bad.txt"), 2, "bad.txt:10: field 5 of a history row is empty", "refused tables")

    for words in [[], ["check"], ["check", "clean.xml"], ["check", "--tables"], ["no\x1bsuch"], ["check", "--format", "xml", "--tables", "none.txt", "x"],
                  ["check", "--threads", "0", "--tables", "none.txt", "clean.xml"], ["tables"], ["explain", "12", "--no\nsuch"]]:
        answer = here.run(*words)
        check(b"\x1b" not in answer.raw, f"{words}: {answer}")
        common.one_line(answer, 3, "error: ", f"{words}")
    for words in ["--help"], ["check", "--help"], ["--version"]:
        answer = here.run(*words)
        check(answer.status == 0 and answer.lines and not answer.complaints, f"{words}: {answer}")


def walks(here):
    for name in ["b.xml", "a.xml", "sub/c.xml", "sub/d.XML", "sub/deeper/e.xml", "sub/f.txt", "sub/xml", "a.xml.bak"]:
        here.write("walk/" + name, CLEAN)
    os.symlink("..", here.at("walk/sub/up"))
    os.symlink("../../walk", here.at("walk/sub/round.xml"))
    os.symlink("b.xml", here.at("walk/link.xml"))
    os.symlink("nowhere", here.at("walk/nowhere.xml"))
    os.symlink("walk", here.at("named"))
    os.mkfifo(here.at("walk/pipe.xml"))
    found = ["a.xml", "b.xml", "link.xml", "sub/c.xml", "sub/d.XML", "sub/deeper/e.xml"]
    for folder in ["walk", "named"]:
        answer = here.check("--format", "concise", folder)
        same(answer.lines[:-1], [f"{folder}/{name}: clean" for name in found], f"the drafts of {folder}")
        same(answer.complaints, [f"{folder}/nowhere.xml: cannot be read: No such file or directory (os error 2)"], "a link to nothing")
    answer = here.check("--format", "concise", "walk/sub/f.txt", "walk/b.xml", "walk/a.xml")
    same(answer.lines[:-1], ["walk/sub/f.txt: clean", "walk/b.xml: clean", "walk/a.xml: clean"], "named files, in their order")
    here.write("empty/readme", b"")
    common.one_line(here.check("empty"), 3, "there is no draft: no file in what is named ends in .xml", "a folder without drafts")


def threads(here):
    for number in range(200):
        here.write(f"many/{number:03}.xml", [CLEAN, b"<a/>", b"<a>", b"<document><b/></document>"][number % 4])
    for form in FORMS:
        answers = [here.check("--format", form, "--threads", threads, "many") for threads in ["1", "7"]]
        check(answers[0].raw == answers[1].raw and len(answers[0].raw) > 3_000, f"{form}: the order is that of the paths, whatever the threads do")
    same(here.check("many").lines[-1], "200 drafts: 50 clean, 100 with 650 findings, 50 refused", "the summary")


def hostile(here):
    for name in HOSTILE:
        here.write(b"hostile/" + name, b"<a/>")
    here.write("hostile/text.xml", "<document>\n<x a='\u202e\u009b31m'/>\x7f\n</document>".encode())
    controls = re.compile("[\x00-\x08\x0b-\x1f\x7f-\x9f\u200b-\u200f\u2028-\u202e\ufeff]")
    for form in FORMS:
        answer = here.check("--format", form, "hostile", "missing\x1b[2J\n.xml")
        printed = answer.raw.replace(b"\r\n", b"\n").decode()
        if form not in ("json", "sarif"):
            check(not controls.search(printed), f"{form}: a control character is printed raw")
        same(len(answer.complaints), 1, f"{form}: one line for the missing draft")
    answer = here.check("--format", "plain", "hostile")
    same(sum(line.endswith(":") for line in answer.lines), len(HOSTILE) + 1, "one heading for each draft")

    names = sorted([b"hostile/" + name for name in HOSTILE] + [b"hostile/text.xml"])
    drafts = json.loads(text(here.check("--format", "json", "hostile")))["drafts"]
    same([urllib.parse.unquote_to_bytes(draft["uri"]) for draft in drafts], names, "the addresses in JSON are the names, byte for byte")
    plain = re.compile(r"[A-Za-z0-9\-._~/%]+")
    check(all(plain.fullmatch(draft["uri"]) for draft in drafts), "an address has plain characters alone")
    results = json.loads(text(here.check("--format", "sarif", "hostile")))["runs"][0]["results"]
    uris = {result["locations"][0]["physicalLocation"]["artifactLocation"]["uri"] for result in results}
    same(sorted(map(urllib.parse.unquote_to_bytes, uris)), names, "the addresses in SARIF")
    draft = json.loads(text(here.check("--format", "json", here.at("hostile/+1.xml"))))["drafts"][0]
    same(draft["uri"], "file://" + urllib.parse.quote(os.path.abspath(os.fsdecode(here.at("hostile/+1.xml")))), "a whole path")

    os.chdir(os.fsencode(os.path.join(here.path, "hostile")))
    done = subprocess.run([here.program, "check", "--tables", "../none.txt", "--format", "csv", "--", *HOSTILE], capture_output=True, check=False)
    os.chdir(common.HERE)
    table = list(csv.reader(io.StringIO(done.stdout.decode(), newline="")))
    same({len(row) for row in table}, {13}, "every row of the table has 13 fields")
    same(len(table), 1 + 6 * len(HOSTILE), "a row for each finding")
    check(not any(cell[:1] in ("=", "+", "-", "@") for row in table for cell in row), "a spreadsheet would run a field")
    check(all(line.endswith(b"\r") for line in done.stdout.split(b"\n")[:-1]), "a row does not end in CR LF")


def machine_forms(here):
    """JSON and SARIF against the plain form and the documents themselves."""
    folder = os.path.join(common.HERE, "printed")
    words = ["--tables", "tables.txt", "drafts"]
    plain = common.run(here.program, "check", "--format", "plain", *words, cwd=folder)
    blocks = re.split(r"^(drafts/.*):$", text(plain), flags=re.M)[1:]
    plain = {name: block.strip().split("\n") for name, block in zip(blocks[::2], blocks[1::2])}

    whole = json.loads(text(common.run(here.program, "check", "--format", "json", *words, cwd=folder)))
    same([draft["file"] for draft in whole["drafts"]], list(plain), "the drafts in JSON")
    for draft in whole["drafts"]:
        if draft["verdict"] == "refused":
            lines = [f"refused {draft['refusal']['number']} at {draft['refusal']['value']}"]
        else:
            records = [f"{found['procedure']} {found['first']} {found['after']}" for found in draft["findings"]]
            lines = [f"findings {len(records)}", *records]
            same(draft["verdict"], "findings" if records else "clean", f"{draft['file']}: the verdict")
        same(lines, plain[draft["file"]], f"{draft['file']} in JSON")
        document = common.bytes_of(os.path.join(folder, draft["file"]))
        same(draft["bytes"], len(document), f"{draft['file']}: its length")
        for found in draft.get("findings", []):
            # The place, found again by splitting the text: the line and column of the element's first character and of what follows it.
            for place, line, column in [("first", "line", "column"), ("after", "end_line", "end_column")]:
                before = re.split("\r\n|\r|\n", document[: found[place]].decode())
                same((found[line], found[column]), (len(before), len(before[-1]) + 1), f"{draft['file']}: {place} of {found['procedure']}")
            check(document[found["first"] :].startswith(b"<") and document[: found["after"]].endswith(b">"), f"{draft['file']}: an element")

    log = json.loads(text(common.run(here.program, "check", "--format", "sarif", *words, cwd=folder)))
    same((log["version"], len(log["runs"])), ("2.1.0", 1), "SARIF")
    tool = log["runs"][0]
    rules = [rule["id"] for rule in tool["tool"]["driver"]["rules"]]
    same(rules, [f"procedure-{number}" for number in range(1, 39)] + [f"refusal-{number}" for number in range(1, 14)] + ["unread"], "the rules")
    results = iter(tool["results"])
    for draft in whole["drafts"]:
        for found in draft.get("findings", []):
            result = next(results)
            region = result["locations"][0]["physicalLocation"]["region"]
            same(result["ruleId"], f"procedure-{found['procedure']}", "the rule of a result")
            places = [found["line"], found["column"], found["end_line"], found["end_column"], found["first"], found["after"] - found["first"]]
            names = ["startLine", "startColumn", "endLine", "endColumn", "byteOffset", "byteLength"]
            same([region[name] for name in names], places, "the region of a result")
            same(result["locations"][0]["logicalLocations"][0]["fullyQualifiedName"], found["path"], "the element of a result")
        if "refusal" in draft:
            result = next(results)
            same(result["ruleId"], f"refusal-{draft['refusal']['number']}", "the rule of a refusal")
            region = result["locations"][0]["physicalLocation"]["region"]
            same((region["startLine"], region["startColumn"]), (draft["refusal"]["line"], draft["refusal"]["column"]), "the place of a refusal")
    same(list(results), [], "no result besides")
    same(tool["invocations"], [{"executionSuccessful": True}], "the run")


def limits(here):
    def plain(name, **options):
        return here.check("--format", "plain", name, tables="none.txt", **options)

    here.write("full.xml", b"<a/>" + b" " * (LIMIT - 4))
    same(plain("full.xml").lines[0], "findings 6", "a document at its limit")
    here.write("over.xml", b"<a/>" + b" " * (LIMIT - 3))
    same(plain("over.xml").lines, [f"refused 1 at {LIMIT + 1}"], "a document over its limit")
    same(here.check("over.xml").lines[0], f"over.xml: refused 1 the draft is too long: {LIMIT + 1} bytes, over the limit of {LIMIT}", "in words")
    with open(here.at("huge.xml"), "wb") as file:
        file.truncate(50_000_000_000)
    before = time.monotonic()
    same(plain("huge.xml").lines, ["refused 1 at 50000000000"], "a huge file")
    check(time.monotonic() - before < 20, "a huge file is read whole")
    os.mkfifo(here.at("pipe"))
    feeder = threading.Thread(target=here.write, args=("pipe", b" " * 3_000_000))
    feeder.start()
    same(plain("pipe").lines, ["refused 1 at 3000000"], "a long pipe")
    feeder.join()

    common.one_line(here.check("full.xml", tables="huge.xml"), 2, f"huge.xml: the tables have 50000000000 bytes, over the limit of {LIMIT}", "huge tables")
    here.write("full.txt", b"0\n1024\n" + (b"1\t" + b"n" * 1021 + b"\n") * 1023 + b"1\t" + b"n" * 1012 + b"\n0\n")
    same(os.path.getsize(here.at("full.txt")), LIMIT, "tables at their limit")
    same(here.check("full.xml", tables="full.txt").status, 1, "a full document under full tables")

    # All on one line, with as many findings as there are elements and more: places and paths are found without walking the line for each.
    here.write("line.xml", b"<document>" + b"<x><y/></x>" * 8_191 + b"\xc3\xa9</document>")
    before = time.monotonic()
    for form in FORMS:
        answer = here.check("--format", form, "line.xml", tables="none.txt")
        lines = answer.raw.split(b"\n")
        same((answer.status, answer.raw.count(b"procedure" if form in ("json", "sarif") else b"\n") > 8_191), (1, True), f"{form}: many findings on one line")
        if form in ("human", "concise"):
            check(max(map(len, lines)) < 600, f"{form}: a line of {max(map(len, lines))} bytes is printed")
            check(any(line.startswith(b"line.xml:1:90101: 2 ") for line in lines), f"{form}: the last element's column")
    check(time.monotonic() - before < 120, "many findings take long")


def terminals(here):
    here.write("broken.xml", b"<a/>")

    def in_terminal(*words, variables=None):
        """What the program prints on a terminal, standard output and standard error together."""
        ours, theirs = pty.openpty()
        process = subprocess.Popen([here.program, "check", "--tables", "none.txt", *words], cwd=here.path, stdin=subprocess.DEVNULL,
                                   stdout=theirs, stderr=theirs, env={**os.environ, "TERM": "xterm", **(variables or {})})
        os.close(theirs)
        printed = b""
        while select.select([ours], [], [], 60)[0]:
            try:
                part = os.read(ours, 65_536)
            except OSError:
                break
            printed += part
        process.wait()
        os.close(ours)
        return printed

    colour = re.compile(rb"\x1b\[[0-9;]*m")
    plain = {name: value for name, value in os.environ.items() if name != "NO_COLOR"}
    os.environ.clear()
    os.environ.update(plain)
    printed = in_terminal("broken.xml")
    check(colour.search(printed), "no colour on a terminal")
    check(not colour.search(in_terminal("broken.xml", variables={"NO_COLOR": "1"})), "colours in spite of NO_COLOR")
    check(colour.search(in_terminal("broken.xml", variables={"NO_COLOR": ""})), "an empty NO_COLOR says nothing")
    check(b"\x1b" not in here.check("broken.xml", tables="none.txt").raw, "colours or progress where there is no terminal")
    for number in range(300):
        here.write(f"slow/{number}.xml", b"<a/>")
    check(b" of 300 drafts" in in_terminal("--format", "plain", "slow"), "no progress on a terminal")
    check(b" drafts, " not in here.check("--format", "plain", "slow", tables="none.txt").raw, "progress where there is no terminal")


def pipes(here):
    for number in range(300):
        here.write(f"pipes/{number}.xml", b"<a/>")
    words = [here.program, "check", "--tables", "none.txt", "pipes"]
    process = subprocess.Popen(words, cwd=here.path, stdin=subprocess.DEVNULL, stdout=subprocess.PIPE, stderr=subprocess.PIPE)
    process.stdout.readline()
    process.stdout.close()
    complaints = process.stderr.read()
    process.stderr.close()
    same((process.wait(), complaints), (3, b""), "a pipe that is closed")
    for words in [["check", "--tables", "none.txt", "pipes"], ["explain"], ["tables", "check", "none.txt"], ["tables", "join", "none.txt", "none.txt"], ["--help"]]:
        with open("/dev/full", "wb") as full:
            done = subprocess.run([here.program, *words], cwd=here.path, stdout=full, stderr=subprocess.PIPE, check=False)
        same((done.returncode, done.stderr), (3, b"standard output cannot be written: No space left on device (os error 28)\n"), f"{words} on a full disk")
    # Nobody reads standard error either.
    done = subprocess.run(f"exec '{here.program}' check --tables none.txt missing.xml 2>&-", shell=True, cwd=here.path, capture_output=True, check=False)
    same((done.returncode, done.stdout), (3, b"1 draft: 1 not read\n"), "standard error closed")


def tables(here):
    answer = here.run("tables", "check", "tables.txt")
    same((answer.status, answer.lines), (0, ["tables.txt: accepted: 4 code list rows, 2 register rows, 1 history row"]), "tables check")
    here.write("bad\x1b.txt", b"0\n0\n1\nt\ts\t1\td\n")
    common.one_line(here.run("tables", "check", "bad\x1b.txt"), 2, "bad\\u{1b}.txt:4: a history row has 4 fields, not 5", "tables check")
    common.one_line(here.run("tables", "check", "missing"), 3, "missing: cannot be read: ", "tables check")

    # The worked example of the definition.
    with open(os.path.join(PROJECT, "crates", "table_join", "specs", "Examples.antt")) as file:
        both = re.search(r"^both : joined(.*?)^unfolding", file.read(), re.M | re.S).group(1)
    a, b, joined = [part.encode().decode("unicode_escape").encode() for part in re.findall(r'text "(.*?)"', both)]
    here.write("a.txt", a)
    here.write("b.txt", b)
    same(here.run("tables", "join", "a.txt", "b.txt").raw, joined, "the join of the definition's example")
    same(here.run("tables", "join", "a.txt", "b.txt", "--out", "joined.txt").status, 0, "a join into a file")
    same(common.bytes_of(here.at("joined.txt")), joined, "a join into a file")
    common.one_line(here.run("tables", "join", "a.txt", "bad\x1b.txt"), 2, ":4: a history row has 4 fields, not 5", "a join with a refused file")
    common.one_line(here.run("tables", "join", "a.txt", "missing"), 3, "missing: cannot be read: ", "a join with a missing file")
    common.one_line(here.run("tables", "join", "a.txt", "b.txt", "--out", "no/such"), 3, "no/such: cannot be written: ", "a join into no folder")
    here.write("many.txt", b"0\n65535\n" + b"1\t2\n" * 65_535 + b"0\n")
    common.one_line(here.run("tables", "join", "many.txt", "b.txt"), 2, "not joined: the register would have 65536 rows, over the limit of 65535", "a join")
    here.write("long.txt", b"300\n" + (b"c\ts\t" + b"n" * 2_000 + b"\n") * 300 + b"0\n0\n")
    common.one_line(here.run("tables", "join", "long.txt", "long.txt"), 2, "not joined: the file would have ", "a join over the length")


def vectors(here):
    """The plain form against the printed answers of the vectors."""
    data = os.path.join(PROJECT, "crates", "program_vectors", "data")
    blocks = common.bytes_of(os.path.join(data, "expected.txt")).decode().split("== ")[1:]
    compared = 0
    for block in blocks:
        name, expected = block.split("\n", 1)
        refused = re.match(r"refused (\d+) ", expected)
        # The small program has rooms of its own, which refuse what the floor's program judges.
        if refused and int(refused.group(1)) not in (4, 5, 6, 7, 8):
            continue
        answer = common.run(here.program, "check", "--format", "plain", "--tables", f"{data}/{name}.tables", f"{data}/{name}.xml")
        same("".join(line + "\n" for line in answer.lines), expected, f"the vector {name}")
        compared += 1
    check(compared > 400, f"{compared} vectors were compared")


def main():
    program, folder, _ = common.arguments("")
    here = Folder(program, folder)
    for part in [statuses, walks, threads, hostile, machine_forms, limits, terminals, pipes, tables, vectors]:
        part(here)
    common.end("checks")


main()
