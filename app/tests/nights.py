"""Hundreds of made-up nights: the store after each step against the reference of the harness, and against `verify`.

nights.py PROGRAM FOLDER [NIGHTS [FIRST]]   (200 nights from seed 0; RUSTC names the compiler)
"""

import os
import shutil
import subprocess

import common
from common import check, run, same

HOST = os.path.join(common.HERE, "..", "..", "host", "src")


def build(folder):
    """The generator, for this machine: it has nothing of the archive."""
    rustc = [os.environ.get("RUSTC", "rustc"), "-O", "--edition", "2021", "-L", folder, "--out-dir", folder]
    crates = []
    for crate in ["reference", "drafts"]:
        subprocess.run([*rustc, "--crate-type", "rlib", "--crate-name", crate, os.path.join(HOST, crate + ".rs")], check=True)
        crates += ["--extern", crate]
    subprocess.run([*rustc, "--crate-type", "bin", *crates, os.path.join(common.HERE, "nights.rs")], check=True)
    return os.path.join(folder, "nights")


def expected(path):
    """Whether the file was accepted, and the answer for each draft."""
    with open(path) as file:
        first, *lines = file.read().splitlines()
    return first == "accepted", {b"drafts/" + name.encode(): answer for name, answer in (line.split(" ", 1) for line in lines)}


def change(before, after):
    """The last line of `add`, from the answers before and after."""
    changed = new = gone = 0
    for name in after:
        had, has = set(before[name].split()), set(after[name].split())
        changed += had != has
        new += len(has - had)
        gone += len(had - has)
    rest = len(after) - changed
    if not changed:
        return f"no draft changed; {rest} as before", 0
    drafts = "1 draft" if changed == 1 else f"{changed} drafts"
    findings = "1 new finding" if new == 1 else f"{new} new findings"
    return f"{drafts} changed: {findings}, {gone} gone; {rest} as before", 1 if new else 0


def status_of(answers):
    if any(answer.startswith("refused") for answer in answers.values()):
        return 2
    return 0 if all(answer == "found" for answer in answers.values()) else 1


def no_difference(answer, store, what):
    holds = answer.status == 0 and answer.lines and answer.lines[-1].endswith("no difference") and not answer.complaints
    check(holds, f"{what}: verify of {store}: {answer}")


def play(program, night, tally):
    """One night with all that comes later."""
    def bench(*words):
        return run(program, *words, cwd=night)

    _, before = expected(os.path.join(night, "0.expected"))
    answer = bench("night", "--store", "store", "--tables", "tables.txt", "drafts")
    same(answer.status, status_of(before), f"{night}: status of the night")
    same(common.verdicts(os.path.join(night, "store")), before, f"{night}: verdicts of the night")

    number = 1
    taken = set()
    while os.path.exists(os.path.join(night, f"{number}.later")):
        later = f"{number}.later"
        accepted, after = expected(os.path.join(night, f"{number}.expected"))
        content = common.bytes_of(os.path.join(night, later))
        whole = common.dump(os.path.join(night, "store"))
        answer = bench("add", "--store", "store", later)
        if not accepted:
            common.one_line(answer, 2, later, f"{night}: a refused file {later}")
            same(common.dump(os.path.join(night, "store")), whole, f"{night}: the store after {later}")
            tally["refused"] += 1
        elif content in taken or content == common.bytes_of(os.path.join(night, "tables.txt")):
            check(answer.status == 0 and "nothing was changed" in answer.lines[-1], f"{night}: {later} a second time: {answer}")
            same(common.dump(os.path.join(night, "store")), whole, f"{night}: the store after {later}")
            tally["again"] += 1
        else:
            line, status = change(before, after)
            same((answer.lines[-1:], answer.status), ([line], status), f"{night}: what {later} changed")
            tally["changed"] += not line.startswith("no draft")
        taken.add(content)
        same(common.verdicts(os.path.join(night, "store")), after, f"{night}: verdicts after {later}")
        before = after
        number += 1
        tally["added"] += 1
    no_difference(bench("verify", "--store", "store"), night, "after what came later")

    # One draft is another: it is judged afresh under the night's tables and all that was added.
    _, after = expected(os.path.join(night, "changed.expected"))
    shutil.copytree(os.path.join(night, "changed"), os.path.join(night, "drafts"), dirs_exist_ok=True)
    answer = bench("night", "--store", "store", "--tables", "tables.txt", "drafts")
    same(common.verdicts(os.path.join(night, "store")), after, f"{night}: verdicts after a draft changed")
    kept = len(after) - 1
    same(answer.lines[-1], f"since the last night: 0 new, 1 judged afresh, {kept} as before, 0 no longer there", f"{night}: a changed draft")
    no_difference(bench("verify", "--store", "store"), night, "after a draft changed")


def main():
    program, folder, rest = common.arguments("[NIGHTS [FIRST]]")
    nights, first = int(rest[0]) if rest else 200, int(rest[1]) if len(rest) > 1 else 0
    made = os.path.join(folder, "made")
    shutil.rmtree(made, ignore_errors=True)
    subprocess.run([build(folder), str(first), str(first + nights), made], check=True)
    tally = {"added": 0, "changed": 0, "refused": 0, "again": 0}
    for seed in range(first, first + nights):
        play(program, os.path.join(made, str(seed)), tally)
    print(f"{nights} nights, {tally['added']} files later: {tally['changed']} changed drafts, {tally['refused']} were refused, {tally['again']} were there")
    check(nights < 50 or (tally["changed"] > 0 and tally["refused"] > 0), "the nights changed nothing, or nothing was refused")
    common.end("nights")


main()
