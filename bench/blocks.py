#!/usr/bin/env python3
"""Measures what it costs to find the blocks of a citation.

    bench/blocks.py [PROGRAM]

PROGRAM is the program that runs cases. A document of one marker cites each of N books, with years that come of a fixed seed, by a style that
prints family names, or their substitute, and years, and gathers the cites of the same names: each cite is a block by itself. The books
are by N authors of one family name, or by N editors of one, or by nobody and of N titles, or of one title in which other letters are formulas.
For N = 1,000, 10,000 and 100,000 it prints the bytes of the case, its instructions (by `valgrind --tool=callgrind`) and its seconds; then the
growth exponents of the instructions from each size to the next.
"""
import json
import os
import random
import subprocess
import tempfile
import time

import results
from measuring import SIZES, built, growth_between, instructions

EDITOR = {"node": "names", "variables": ["editor"]}
TITLE = {"node": "text", "variable": "title"}
AUTHOR = {"node": "names", "variables": ["author"], "name": {"form": "short"}, "substitute": [EDITOR, TITLE]}
YEAR = {"node": "date", "variable": "issued", "date_parts": [{"name": "year"}]}
LAYOUT = {"nodes": [{"node": "group", "delimiter": " ", "nodes": [AUTHOR, YEAR]}], "delimiter": "; "}
STYLE = {"citation": {"layout": LAYOUT, "collapse": "year", "cite_group_delimiter": ", "}}


def formulas(place):
    """A title in which those letters are formulas that the bits of the place name."""
    return "".join(f"${letter}$" if place >> bit & 1 else letter for bit, letter in enumerate("abcdefghijklmnopq"))


BOOKS = {
    "authors of one family name": lambda place: f"author={{Roe, Ann{place}}}, title={{T}}",
    "editors of one family name": lambda place: f"editor={{Roe, Ann{place}}}, title={{T}}",
    "titles": lambda place: f"title={{T{place}}}",
    "formulas in one title": lambda place: f"title={{{formulas(place)}}}",
}


def case(fields, count):
    """A case with so many books and a marker that cites all of them."""
    chance = random.Random(count)
    books = [f"@book{{k{place}, {fields(place)}, date={{{chance.randint(1900, 2025)}}}}}" for place in range(count)]
    cites = "; ".join(f"@k{place}" for place in range(count))
    return json.dumps({"case": "cite", "name": f"{count} books", "bib": "\n".join(books), "document": f"[{cites}]", "style": STYLE})


def measured(program, folder, fields, count):
    """The row of so many books."""
    path = os.path.join(folder, "case")
    with open(path, "w") as out:
        out.write(case(fields, count) + "\n")
    with open(path) as given:
        started = time.perf_counter()
        subprocess.run([program], stdin=given, stdout=subprocess.DEVNULL, check=True)
        seconds = time.perf_counter() - started
    with open(path) as given:
        ran = instructions([program], folder, given)
    print(f"{count:>7} {os.path.getsize(path):>10} {ran:>14} {seconds:>8.3f}", flush=True)
    return {"N": count, "bytes": os.path.getsize(path), "instructions": ran, "seconds": round(seconds, 2)}


def run_of(program, folder, fields):
    """The rows of such books, and the growth between them."""
    rows = [measured(program, folder, fields, count) for count in SIZES]
    exponents = [round(growth_between(small, large), 4) for small, large in zip(rows, rows[1:])]
    print(f"growth exponents: {' and '.join(map(str, exponents))}")
    return {"rows": rows, "exponents": exponents}


def main():
    found = {}
    with tempfile.TemporaryDirectory() as folder:
        program = built("case_runner")
        for name, fields in BOOKS.items():
            print(name)
            found[name] = run_of(program, folder, fields)
    results.record("blocks", {"script": "blocks.py", "runs": found})


main()
