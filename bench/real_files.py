#!/usr/bin/env python3
"""Gives each .bib file below some folders to the filter, with an empty document, and writes docs/REAL-FILES.md.

    bench/real_files.py SOURCE FOLDER..

SOURCE says what the files are, as the names and versions of the packages that were unpacked into the folders. The answers are counted
by the program's line without the names in it; it is run on each file once, and one that it does not end by itself in 60 seconds
ends the script.
"""
import collections
import os
import re
import subprocess
import sys

import results

PROGRAM = os.path.join(results.TOP, "crates/cite_program/out/cite_program")


def files_below(folders):
    """The .bib files below the folders, in order."""
    for folder in folders:
        for at, _, names in sorted(os.walk(folder)):
            for name in sorted(names):
                if name.endswith(".bib"):
                    yield os.path.join(at, name)


def answer(path):
    """What the program says of a file, without the names in it."""
    ran = subprocess.run([PROGRAM, "numeric", "plain", path, os.devnull], capture_output=True, timeout=60)
    if ran.returncode == 0:
        return "read"
    line = ran.stderr.decode(errors="replace").split("\n")[0]
    line = re.sub(r"^cite: (bib: )?", "", line)
    return re.sub(r"(unknown abbreviation|circular abbreviation|duplicate key|circular reference) .*", r"\1", line)


def main():
    if len(sys.argv) < 3:
        sys.exit(__doc__)
    groups, longest, count = collections.defaultdict(list), 0, 0
    for path in files_below(sys.argv[2:]):
        groups[answer(path)].append(os.path.basename(path))
        longest, count = max(longest, os.path.getsize(path)), count + 1
    rows = [{"files": len(names), "answer": said, "example": f"`{names[0]}`"} for said, names in groups.items()]
    rows.sort(key=lambda row: (-row["files"], row["answer"]))
    results.record("real_files", {"source": sys.argv[1], "files": count, "longest": longest, "rows": rows})


main()
