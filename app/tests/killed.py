"""A night and an `add` that are killed, or cut off from power, leave the store as before or as after, whole.

killed.py PROGRAM FOLDER [KILLS]   kills at moments spread over the run (60); with strace also at each call by which a store changes, and power
                                   cuts after each: what was written but not made to last is lost, in any part
"""

import os
import random
import re
import shutil
import signal
import subprocess
import time

import common
from common import check, run, same

# The calls by which SQLite changes files and makes changes last.
CALLS = ["pwrite64", "write", "fdatasync", "fsync", "ftruncate", "unlink", "unlinkat"]

# What a disk writes whole.
SECTOR = 512


class Disk:
    """A store and its journal as they are on a disk: what was made to last, and what was not yet."""

    def __init__(self, folder, store):
        self.folder = folder
        self.lasting = {"store": store or b"", "store-journal": b""}
        self.pending = {"store": [], "store-journal": []}
        # Whether the folder has the file: for certain, and what was changed since.
        self.there = {"store": store is not None, "store-journal": False}
        self.changes = []

    def now(self, name):
        return ([there for changed, there in self.changes if changed == name] or [self.there[name]])[-1]

    def make(self, name):
        if not self.now(name):
            self.changes.append((name, True))
            self.lasting[name], self.pending[name] = b"", []

    def sync(self, path):
        if path == self.folder:
            self.there.update(self.changes)
            self.changes = []
        else:
            name = os.path.basename(path)
            self.lasting[name] = self.written(name, lambda: True)
            self.pending[name] = []

    def written(self, name, kept):
        """A file with those of the changes that are kept, sector by sector."""
        content = bytearray(self.lasting[name])
        for at, data in self.pending[name]:
            if data is None:
                if kept():
                    content = content[:at] + bytes(at - len(content))
                continue
            while data:
                part = data[: SECTOR - at % SECTOR]
                if kept():
                    content += bytes(max(0, at + len(part) - len(content)))
                    content[at : at + len(part)] = part
                at, data = at + len(part), data[len(part) :]
        return bytes(content)

    def cut(self, dice):
        """The files that the folder has when the power comes back."""
        share = dice.choice([0, 0.5, 0.9, 1])
        there = {**self.there, **dict(self.changes[: dice.randint(0, len(self.changes))])}
        return {name: self.written(name, lambda: dice.random() < share) for name in there if there[name]}


def plain(text):
    return bytes.fromhex(text.replace("\\x", ""))


def calls_of(log, folder):
    """The calls of a trace that change the disk: each with the path, and what and where it writes."""
    for line in log.splitlines():
        call = re.match(r"\d+ +(\w+)\(", line)
        strings = [plain(text) for text in re.findall(r'"((?:\\x[0-9a-f]{2})*)"', line)]
        paths = [os.fsdecode(plain(text)) for text in re.findall(r"\d<((?:\\x[0-9a-f]{2})*)>", line)]
        if not call:
            continue
        if call[1] == "openat" and "O_CREAT" in line:
            yield "make", os.fsdecode(strings[0]), None, None
        elif call[1] in ("fdatasync", "fsync"):
            yield "sync", paths[0], None, None
        elif call[1] == "pwrite64":
            yield "write", paths[0], int(re.search(r", (\d+)(?:\)| <unfinished)", line)[1]), strings[0]
        elif call[1] == "ftruncate":
            yield "write", paths[0], int(re.search(r", (\d+)(?:\)| <unfinished)", line)[1]), None
        elif call[1] in ("unlink", "unlinkat"):
            yield "unlink", os.fsdecode(strings[0]), None, None


class Killed:
    def __init__(self, program, folder):
        self.program, self.folder = program, folder
        shutil.rmtree(folder, ignore_errors=True)
        shutil.copytree(common.EXAMPLES, folder)
        for number in range(8):
            shutil.copy(os.path.join(folder, "drafts", "oslo-works-registration.xml"), os.path.join(folder, "drafts", f"{number}.xml"))
        self.store = os.path.join(folder, "store")
        # Stores before each command, as bytes; none is there before the first night.
        night = ["night", "--store", "store", "--tables", "tables.txt", "drafts"]
        self.before = {"first": None}
        self.words = {"first": night, "add": ["add", "--store", "store", "later.txt"], "night": ["night", "--store", "store", "--tables", "later.txt", "drafts"]}
        self.after, self.took = {}, {}
        for name in ["first", "add", "night"]:
            self.put(name)
            began = time.monotonic()
            answer = run(program, *self.words[name], cwd=folder)
            self.took[name] = time.monotonic() - began
            check(answer.status < 3, f"{name}: {answer}")
            self.after[name] = common.dump(self.store, times=False)
            if name == "first":
                self.before["add"] = self.before["night"] = common.bytes_of(self.store)
                self.dump_before = common.dump(self.store)
        self.tally = {"before": 0, "after": 0}

    def put(self, name):
        """The store as it is before a command."""
        self.put_files({} if self.before[name] is None else {"store": self.before[name]})

    def put_files(self, files):
        for file in os.listdir(self.folder):
            if file.startswith("store"):
                os.remove(os.path.join(self.folder, file))
        for file, content in files.items():
            with open(os.path.join(self.folder, file), "wb") as out:
                out.write(content)

    def look(self, name, what):
        """The store after a kill: the program itself is the first to open it again."""
        answer = run(self.program, "verify", "--store", "store", cwd=self.folder)
        empty = not os.path.exists(self.store) or os.path.getsize(self.store) == 0
        if name == "first" and empty:
            common.one_line(answer, 3, "store", f"{what}: verify of nothing")
            self.tally["before"] += 1
            # The night can be had again, whatever was left of it.
            answer = run(self.program, *self.words[name], cwd=self.folder)
            check(answer.status < 3 and common.dump(self.store, times=False) == self.after[name], f"{what}: the night again: {answer}")
            return
        if not check(answer.status == 0 and answer.lines and answer.lines[-1].endswith("no difference"), f"{what}: verify: {answer}"):
            return
        if name != "first" and common.dump(self.store) == self.dump_before:
            self.tally["before"] += 1
        elif check(common.dump(self.store, times=False) == self.after[name], f"{what}: the store is neither as before nor as after"):
            self.tally["after"] += 1
        # What is left of a journal asks for nothing: it never got as far as its first byte.
        journal = self.store + "-journal"
        check(not os.path.exists(journal) or common.bytes_of(journal)[:8] in (b"", bytes(8)), f"{what}: the journal is still needed")

    def at_moments(self, kills):
        for number in range(kills):
            name = ["first", "add", "night"][number % 3]
            self.put(name)
            # From the start to a little behind the end.
            moment = self.took[name] * 1.1 * (number // 3) / max(1, kills // 3 - 1)
            process = subprocess.Popen([self.program, *self.words[name]], cwd=self.folder, stdout=subprocess.DEVNULL, stderr=subprocess.DEVNULL)
            time.sleep(moment)
            process.send_signal(signal.SIGKILL)
            process.wait()
            self.look(name, f"{name} killed after {moment:.3f} s")

    def at_calls(self):
        """Kills at the first call of a kind on the store, its journal or its folder, then at the second, until the command lives."""
        kills = 0
        log = os.path.join(self.folder, "trace")
        paths = [word for path in [self.store, self.store + "-journal", self.folder] for word in ["-P", path]]
        for name, words in self.words.items():
            calls = 0
            for call in CALLS:
                number = 0
                while True:
                    number += 1
                    self.put(name)
                    trace = ["strace", "-f", "-o", log, *paths, "-e", f"trace={call}", "-e", f"inject={call}:signal=KILL:when={number}"]
                    subprocess.run([*trace, self.program, *words], cwd=self.folder, stdout=subprocess.DEVNULL, stderr=subprocess.DEVNULL)
                    if b"killed by SIGKILL" not in common.bytes_of(log):
                        break
                    calls += 1
                    self.look(name, f"{name} killed at {call} {number}")
            check(calls >= 20, f"{name} changes its store in {calls} calls")
            kills += calls
        return kills

    def at_power_cuts(self, each):
        """Cuts after each call by which a command changes the disk, so many times each; after the last one the command has ended."""
        cuts = 0
        dice = random.Random(1)
        log = os.path.join(self.folder, "trace")
        paths = [word for path in [self.store, self.store + "-journal", self.folder] for word in ["-P", path]]
        for name, words in self.words.items():
            self.put(name)
            trace = ["strace", "-f", "-y", "-xx", "-s", "100000", "-o", log, *paths, "-e", "trace=openat," + ",".join(CALLS)]
            subprocess.run([*trace, self.program, *words], cwd=self.folder, stdout=subprocess.DEVNULL, stderr=subprocess.DEVNULL)
            disk = Disk(self.folder, self.before[name])
            after = self.tally["after"]
            for call, path, at, data in calls_of(common.bytes_of(log).decode(), self.folder):
                file = os.path.basename(path)
                if call == "sync":
                    disk.sync(path)
                elif call == "make" and file in disk.there:
                    disk.make(file)
                elif call == "write":
                    disk.pending[file].append((at, data))
                elif call == "unlink":
                    disk.changes.append((file, False))
                for _ in range(each):
                    self.put_files(disk.cut(dice))
                    cuts += 1
                    self.look(name, f"{name}: cut {cuts}, after {call} of {file}")
            same([disk.changes, disk.pending], [[], {"store": [], "store-journal": []}], f"{name}: what has ended and is not made to last")
            check(self.tally["after"] >= after + each, f"{name}: what has ended is lost")
        return cuts


def main():
    program, folder, rest = common.arguments("[KILLS]")
    killed = Killed(program, os.path.join(folder, "night"))
    kills = int(rest[0]) if rest else 60
    killed.at_moments(kills)
    print(f"killed: {kills} kills at moments over the run left the store {killed.tally['before']} times as before, {killed.tally['after']} times as after")
    if shutil.which("strace") and subprocess.run(["strace", "-o", "/dev/null", "true"], stderr=subprocess.DEVNULL).returncode == 0:
        killed.tally = {"before": 0, "after": 0}
        kills = killed.at_calls()
        print(f"killed: {kills} kills at each call by which the store changes left it {killed.tally['before']} times as before, {killed.tally['after']} times as after")
        check(killed.tally["before"] > 0 and killed.tally["after"] > 0, "the kills at calls do not reach both sides of the commit")
        killed.tally = {"before": 0, "after": 0}
        cuts = killed.at_power_cuts(2)
        print(f"killed: {cuts} power cuts left the store {killed.tally['before']} times as before, {killed.tally['after']} times as after")
    else:
        print("killed: there is no strace that works here: the store is killed at moments alone")
    common.end("killed")


main()
