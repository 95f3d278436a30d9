#!/usr/bin/env python3
"""Measures what many cites in one marker cost.

    bench/one_marker.py [PROGRAM]

The bib file has N entries of bench/reader.py; the document is one line with a marker of N cites, whose keys are drawn evenly. Both come of
a fixed seed. For numbers and for authors and years in plain text and for N = 1,000, 10,000 and 100,000 it prints the bytes of input, the
instructions (by `valgrind --tool=callgrind`), the seconds, and the peak memory less that of a run on two empty files. Then the instructions
for each byte of input between the smaller two, and the growth exponents of the instructions from each size to the next.
"""
import tempfile

import mixed
import results
from measuring import SIZES, FilterRuns


def marker(chance, keys):
    """A line with one marker that cites all keys."""
    return f"See [{'; '.join('@' + key for key in keys)}].\n"


def main():
    found = {}
    with tempfile.TemporaryDirectory() as folder:
        runs = FilterRuns(folder)
        for style in ("numeric", "author-date"):
            print(style)
            found[f"{style}, plain"] = runs.measured(style, "plain", SIZES, mixed.write, mixed.draw_keys, marker)
    results.record("one_marker", {"script": "one_marker.py", "runs": found})


main()
