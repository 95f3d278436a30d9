#!/usr/bin/env python3
"""Measures what it costs to say whether a document has to be rendered again once its file was changed.

    bench/alike_files.py [PROGRAM]

PROGRAM is the program that runs cases. A document of N markers is asked about with a file and with the same file after one more entry, which is
not cited: N times one entry by its key, and N times one entry by as many aliases, once each, both with a title of 10 N bytes; and N entries
with titles of 40 to 60 characters, once each, in an order that is drawn, of a file of as many and of one of ten times as many. All come of a
fixed seed.

For N = 1,000 and 10,000 it prints the bytes of the document, and the instructions (by `valgrind --tool=callgrind`) that `are_alike` takes with
what reads the markers. They are the difference of two runs of the program over the same two files, of which both libraries are made: the
other one is over the same document with a brace in the place of each opening, so that it has no markers. Then the growth exponent of these
instructions over those bytes. It ends with status 1 where one is greater than is wanted.
"""
import json
import os
import random
import subprocess
import sys
import tempfile

import results
from measuring import WORDS, built, document, growth_between, instructions, title

SIZES = (1_000, 10_000)
# A sort of ten times as many takes a third more for each of them.
WANTED = 1.15


def long_title(count):
    """A title of ten times so many bytes."""
    chance = random.Random(count)
    text = ""
    while len(text) < 10 * count:
        text += chance.choice(WORDS) + " "
    return text[:10 * count - 1] + "s"


def by_key(count):
    """An entry with a long title, and its key so many times."""
    return f"@book{{k, title = {{{long_title(count)}}}}}\n", ["k"] * count


def by_aliases(count):
    """An entry with a long title and so many aliases, and each of these."""
    aliases = [f"x{place}" for place in range(count)]
    return f"@book{{k, ids = {{{', '.join(aliases)}}}, title = {{{long_title(count)}}}}}\n", aliases


def of_file(times):
    """What gives a file with so many times as many entries as are wanted, and the keys of these in an order that is drawn."""
    def write(count):
        chance = random.Random(count)
        books = [f"@book{{k{place}, title = {{{title(chance)}}}, date = {{{chance.randint(1900, 2025)}}}}}\n" for place in range(times * count)]
        return "".join(books), [f"k{place}" for place in chance.sample(range(times * count), count)]
    return write


CITED = {
    "one entry by its key": by_key,
    "one entry by as many aliases": by_aliases,
    "all entries of the file": of_file(1),
    "a tenth of the entries of the file": of_file(10),
}


class Questions:
    """Runs of the program over a case each, of a file, the changed one and a document."""

    def __init__(self, program, folder):
        self.program, self.folder = program, folder

    def open(self, bib, text):
        """A file that has the case alone, opened."""
        path = os.path.join(self.folder, "case")
        with open(path, "w", encoding="utf-8") as out:
            out.write(json.dumps({"case": "are_alike", "bib": bib, "other": changed(bib), "document": text}) + "\n")
        return open(path, encoding="utf-8")

    def instructions(self, bib, text):
        """The instructions of a run."""
        with self.open(bib, text) as given:
            return instructions([self.program], self.folder, given)

    def check(self, bib, text, member, wanted):
        """Ends where a member of the answer is another than is wanted."""
        with self.open(bib, text) as given:
            answer = json.loads(subprocess.run([self.program], stdin=given, capture_output=True, check=True).stdout)
        if answer.get(member) != wanted:
            sys.exit(f"the answer has not {member} {wanted}: {str(answer)[:200]}")

    def row(self, write, count):
        """What so many cites cost."""
        bib, keys = write(count)
        text = document(random.Random(count), keys)
        bare = text.replace("[@", "{@")
        self.check(bib, text, "alike", True)
        self.check(bib, bare, "alike", True)
        row = {"N": count, "bytes": len(text.encode()), "instructions": self.instructions(bib, text) - self.instructions(bib, bare)}
        print(f"{count:>7} {row['bytes']:>10} {row['instructions']:>14}", flush=True)
        return row


def changed(bib):
    """The file with one more entry before the others."""
    return "@misc{u, title = {U}}\n" + bib


def main():
    runs = {}
    with tempfile.TemporaryDirectory() as folder:
        questions = Questions(built("case_runner"), folder)
        for name, write in CITED.items():
            print(name)
            rows = [questions.row(write, count) for count in SIZES]
            runs[name] = {"rows": rows, "exponent": round(growth_between(*rows), 4)}
            print(f"growth exponent: {runs[name]['exponent']}, wanted at most {WANTED}", flush=True)
    results.record("alike_files", {"script": "alike_files.py", "runs": runs, "wanted": WANTED})
    if any(run["exponent"] > WANTED for run in runs.values()):
        sys.exit(1)


main()
