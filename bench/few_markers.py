#!/usr/bin/env python3
"""Measures what a large file costs of which little is cited.

    bench/few_markers.py [PROGRAM]

100,000 entries of bench/reader.py and a document with 1,000 markers whose keys are drawn evenly, one for each 60 bytes, from a fixed seed:
for numbers and for authors and years it prints the bytes of input, the instructions (by `valgrind --tool=callgrind`), the seconds, and the
peak memory less that of a run on two empty files.
"""
import tempfile

import mixed
import results
from measuring import FilterRuns

ENTRIES, MARKERS = 100_000, 1_000
WANTED = {"rate": 250, "memory": 15}


def draw_keys(chance, count):
    """The keys of all markers."""
    for _ in range(MARKERS):
        yield mixed.draw_key(chance, count)


def main():
    rows = {}
    with tempfile.TemporaryDirectory() as folder:
        runs = FilterRuns(folder)
        for style in ("numeric", "author-date"):
            table = runs.table(style, "plain")
            table.line(ENTRIES, runs.write(ENTRIES, mixed.write, draw_keys))
            rows[style] = table.rows[0]
            print(f"{style}: {table.rows[0]['instructions'] / table.rows[0]['bytes']:.1f} instructions a byte")
    results.record("few_markers", {"script": "few_markers.py", "markers": MARKERS, "rows": rows, "wanted": WANTED})


main()
