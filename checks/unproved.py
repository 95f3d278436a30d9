"""Runs programs of this repository before any proof, for the scripts beside it.

`rt try` builds a program from the sources of all crates below it, with tests of what a proof would exclude (an index out of bounds, an
overflow, a bad access), and runs it on each file of a folder. It runs a program on an interpreter too, which is given one step here: what
is compared is what the compiled program writes.
"""
import os
import re
import subprocess
import tempfile

TOP = os.path.dirname(os.path.dirname(os.path.realpath(__file__)))
CASE = re.compile(r"^case=(\S+) (.*)$", re.M)


def write(path, text):
    with open(path, "w", encoding="utf-8", newline="") as file:
        file.write(text)


def parts(names, written):
    """What stands below the head of each case in what `rt try` writes."""
    heads = re.compile(rf"^== ({'|'.join(map(re.escape, names))})\n", re.M)
    rows = heads.split(written)
    return dict(zip(rows[1::2], rows[2::2]))


def call(folder, data):
    """The words of a run of the cases in a folder, with files that their own words name."""
    files = [word for name, path in data.items() for word in ("--data", f"{name}={path}")]
    return ["rt", "try", "--steps", "1", "--seconds", "300", "--cases", folder, *files]


def run(crate, cases, data):
    """Runs the program of a crate on cases, each a name with its standard input and its words; `data` are the files that the words name, by
    these names. Returns what the program writes for each case that ended with status 0, and what `rt try` says besides."""
    with tempfile.TemporaryDirectory(prefix="cases-") as folder:
        for name, (given, words) in cases.items():
            write(os.path.join(folder, name), given)
            if words:
                write(os.path.join(folder, f"{name}.args"), "".join(f"{word}\n" for word in words))
        how = {"cwd": os.path.join(TOP, "crates", crate), "stdin": subprocess.DEVNULL, "capture_output": True}
        ran = subprocess.run(call(folder, data), **how)
    said = ran.stderr.decode("utf-8", "replace")
    ended = {name for name, how in CASE.findall(said) if how.startswith("run=ended status=0 ")}
    found = parts(cases, ran.stdout.decode("utf-8", "replace"))
    return {name: text for name, text in found.items() if name in ended}, said
