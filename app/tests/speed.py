"""Times a run of the program over many drafts under full tables, against a reader of XML over the same files; and a night of the same drafts, with
what comes after it.

speed.py PROGRAM FOLDER DRAFTS READER..   (READER.. is `xmllint --noout` with what runs it)
"""

import os
import resource
import shutil
import subprocess
import time

import common

LIMIT = 1_048_576

# Bytes of the tables that are left for a row that comes later.
LATER = 200
EXAMPLES = os.path.join(common.HERE, "..", "..", "examples")


def guid(number, kind):
    return f"{number:08x}-0000-4000-8000-{kind:012x}"


def make(folder, count):
    request, registration = [common.bytes_of(os.path.join(EXAMPLES, name)).decode() for name in ("request.xml", "registration.xml")]
    tables = common.bytes_of(os.path.join(EXAMPLES, "tables.txt")).decode().split("\n")
    shutil.rmtree(folder)
    os.makedirs(os.path.join(folder, "drafts"))
    with open(os.path.join(folder, "none.txt"), "w") as file:
        file.write("0\n0\n0\n")

    # Every draft has an id, a set and a labeler code or registrant of its own, as a night's drafts have.
    for number in range(count):
        text = request if number % 2 else registration
        text = text.replace("5d2f8c1e-7a40-4b9d-8e63-0c1f2a7b9d54", guid(number, 1)).replace("b81e40f7-2c6d-4f15-9a3b-6e0d7c5f1a28", guid(number, 2))
        text = text.replace('extension="4217"', f'extension="{10_000 + number}"')
        with open(os.path.join(folder, "drafts", f"{number:04}.xml"), "w") as file:
            file.write(text)

    # The code list and the register of the examples, the register with many firms more, and a history that fills the file up.
    codes, registered = tables[:5], tables[6:8]
    registered += [f"{300_000_000 + number}\tFirm of the register, number {number}" for number in range(8_000)]
    start = "\n".join([*codes, str(len(registered)), *registered]) + "\n"
    row = "51726-8\t{}\t{}\t{}\t{}\n"
    history = []
    left = LIMIT - LATER - len(start) - len("65535\n")
    while True:
        number = len(history)
        next_row = row.format(guid(number, 3), number % 9 + 1, guid(number, 4), 20_000 + number)
        if len(next_row) > left:
            break
        history.append(next_row)
        left -= len(next_row)
    with open(os.path.join(folder, "tables.txt"), "w") as file:
        file.write(start + f"{len(history)}\n" + "".join(history))
    # One of the requests has a labeler code of another set, as a row says that comes later.
    with open(os.path.join(folder, "later.txt"), "w") as file:
        file.write("0\n0\n1\n" + row.format(guid(0, 5), 1, guid(0, 6), 10_001))


def timed(words, folder):
    """The seconds of the clock and of the processors that a command takes, and its last line."""
    before, clock = resource.getrusage(resource.RUSAGE_CHILDREN), time.monotonic()
    done = subprocess.run(words, cwd=folder, stdout=subprocess.PIPE, check=False)
    after, clock = resource.getrusage(resource.RUSAGE_CHILDREN), time.monotonic() - clock
    used = after.ru_utime + after.ru_stime - before.ru_utime - before.ru_stime
    return clock, used, done.stdout.decode().splitlines()[-1:], done.returncode


def main():
    program, folder, (count, *reader) = common.arguments("DRAFTS READER..")
    make(folder, int(count))
    drafts = sorted(os.path.join("drafts", name) for name in os.listdir(os.path.join(folder, "drafts")))
    size = sum(os.path.getsize(os.path.join(folder, name)) for name in drafts)
    print(f"{len(drafts)} drafts of {size} bytes, tables of {os.path.getsize(os.path.join(folder, 'tables.txt'))} bytes")
    runs = {}
    for name, words in [
        ("check, two threads", [program, "check", "--threads", "2", "--format", "concise", "--tables", "tables.txt", "drafts"]),
        ("check, one thread", [program, "check", "--threads", "1", "--format", "concise", "--tables", "tables.txt", "drafts"]),
        ("check, two threads, tables of no rows", [program, "check", "--threads", "2", "--format", "concise", "--tables", "none.txt", "drafts"]),
        ("reader", [*reader, *drafts]),
        ("night", [program, "night", "--store", "store", "--tables", "tables.txt", "drafts"]),
        ("add of one row", [program, "add", "--store", "store", "later.txt"]),
        ("the same night again", [program, "night", "--store", "store", "--tables", "tables.txt", "drafts"]),
        ("verify", [program, "verify", "--store", "store"]),
        ("wall", [program, "wall", "--store", "store", "--out", "wall.html"]),
    ]:
        runs[name] = timed(words, folder)
        clock, used, last, status = runs[name]
        print(f"{name}: {clock:.1f} s by the clock, {used:.1f} s of processors; status {status} {' '.join(last)}")
    print(f"check / reader: {runs['check, two threads'][1] / runs['reader'][1]:.1f} in processor time under full tables, "
          f"{runs['check, two threads, tables of no rows'][1] / runs['reader'][1]:.1f} under tables of no rows")
    print(f"night / check: {runs['night'][1] / runs['check, two threads'][1]:.2f}; "
          f"add of one row / night: {runs['add of one row'][1] / runs['night'][1]:.2f}; verify / night: {runs['verify'][1] / runs['night'][1]:.2f}")


main()
