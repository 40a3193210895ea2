"""What is printed, byte for byte, against the files in `printed/`: each form of `check`, and what `explain` says.

printed.py PROGRAM FOLDER
"""

import os
import shutil
import subprocess

import common
from common import same

PRINTED = os.path.join(common.HERE, "printed")
# A name that a table has to quote, and to keep from a spreadsheet.
NAMED = '=named, "so".draft'
DRAFTS = ["drafts", NAMED, "drafts/missing.xml"]
MISSING = b"drafts/missing.xml: cannot be read: No such file or directory (os error 2)\n"


def main():
    program, folder, _ = common.arguments("")
    shutil.rmtree(folder)
    shutil.copytree(PRINTED, folder)
    os.rename(os.path.join(folder, "named.draft"), os.path.join(folder, NAMED))

    def compare(name, status, errors, *words):
        done = subprocess.run([program, *words], cwd=folder, capture_output=True, check=False)
        same(done.stdout, common.bytes_of(os.path.join(PRINTED, name)), name)
        same((done.stderr, done.returncode), (errors, status), f"{name}: standard error and status")

    for form in ["human", "concise", "plain", "json", "sarif", "csv"]:
        compare(f"check-{form}", 3, MISSING, "check", "--tables", "tables.txt", "--format", form, *DRAFTS)
    compare("check-human", 3, MISSING, "check", "--tables", "tables.txt", *DRAFTS)
    # One draft alone has no heading: what is printed is document 01's form.
    compare("plain-small", 1, b"", "check", "--tables", "no-rows.txt", "--format", "plain", "drafts/small.xml")
    compare("plain-refused", 2, b"", "check", "--tables", "no-rows.txt", "--format", "plain", "drafts/refused-7.xml")

    compare("explain", 0, b"", "explain")
    compare("explain-12", 0, b"", "explain", "12")
    compare("explain-12", 0, b"", "explain", "procedure", "12")
    compare("explain-r7", 0, b"", "explain", "r7")
    compare("explain-r7", 0, b"", "explain", "refusal", "7")
    common.end("printed")


main()
