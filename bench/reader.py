#!/usr/bin/env python3
"""Measures the reader on N mixed entries, by the program that shows what was read.

    bench/reader.py [PROGRAM]

The bib file has abbreviations for journals, and of each four entries two articles, a book, and a chapter that refers to a book
by `crossref`; with accents, groups, verbatim addresses and about 300 bytes an entry. It comes of a fixed seed. For N = 1,000,
10,000 and 100,000 it prints the bytes of input, the instructions (by `valgrind --tool=callgrind`), the seconds, and the peak
memory less that of a run on an empty file. Then the instructions for each byte of input between the smaller two, and the growth
exponents of the instructions from each size to the next.
"""
import os
import random
import tempfile

import mixed
from measuring import Table, built

with tempfile.TemporaryDirectory() as folder:
    bib = os.path.join(folder, "b.bib")
    open(bib, "w").close()
    table = Table([built("bib_show_program"), bib], folder)
    for count in (1_000, 10_000, 100_000):
        mixed.write(bib, random.Random(count), count)
        table.line(count, os.path.getsize(bib))
    table.finish("reader", {"rate": 250, "exponent": 1.05, "memory": 25})
