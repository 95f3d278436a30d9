#!/usr/bin/env python3
"""Measures the filter in each style and each format on N mixed entries and a document with a marker for each of them.

    bench/filter.py [PROGRAM] [N ..]

The entries are those of bench/reader.py; the document has N markers with keys drawn evenly, one for each 60 bytes. Both come of a fixed
seed. For N = 1,000, 10,000 and 100,000, or two or more sizes that are said, it prints the bytes of input, the instructions (by `valgrind
--tool=callgrind`), the seconds, and the peak memory less that of a run on two empty files. Then the instructions for each byte of input
between the smaller two (the difference over the difference) and the growth exponents of the instructions from each size to the next. What
was found is written down where no sizes are said. All takes some 20 minutes.
"""
import sys
import tempfile

import mixed
import results
from measuring import SIZES, FilterRuns

STYLES, FORMATS = ("numeric", "author-date", "note"), ("plain", "html")
WANTED = {"rate": 450, "exponent": 1.05, "memory": 30}


def main():
    sizes = [int(word) for word in sys.argv[2:]] or SIZES
    found = {}
    with tempfile.TemporaryDirectory() as folder:
        runs = FilterRuns(folder)
        for style in STYLES:
            for kind in FORMATS:
                print(style, kind)
                found[f"{style}, {kind}"] = runs.measured(style, kind, sizes, mixed.write, mixed.draw_keys)
    if sizes is SIZES:
        results.record("filter", {"script": "filter.py", "runs": found, "wanted": WANTED})


main()
