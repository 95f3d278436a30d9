#!/usr/bin/env python3
"""Measures what it costs the program `cite_csl` to say many faults of a file that is one line.

    bench/cite_csl_faults.py [PROGRAM]

N dates of a BibLaTeX file that cannot be read, N names of a document that mean no entry, and N elements of a style that ask for what is not
carried out, which `--strict` refuses. For N = 1,000 and 10,000 it prints the bytes of the three files, the instructions (by
`valgrind --tool=callgrind`), the bytes on standard error, and how many times those of the smaller size the instructions and these bytes of
the larger one are. It ends with status 1 where one is more than is wanted.
"""
import os
import subprocess
import sys
import tempfile

from measuring import built, instructions

SIZES = (1_000, 10_000)
# Ten times as many faults, each with two digits more in its place; looking up their keys takes a third more for each.
WANTED = 14
BIB = "@book{a, title={A}, date={2001}}"
NODE = '<text variable="title"/>'
STYLE = '<style xmlns="http://purl.org/net/xbiblio/csl" class="in-text" version="1.0"><info/><citation><layout>{}</layout></citation></style>'


def dates(count):
    """Entries whose dates cannot be read."""
    return STYLE.format(NODE), "".join(f"@book{{k{place}, title={{T}}, date={{soon}}}} " for place in range(count)), "[@k0]"


def names(count):
    """A marker with names that mean no entry."""
    return STYLE.format(NODE), BIB, f"[{'; '.join(f'@x{place}' for place in range(count))}]"


def features(count):
    """Elements that ask for what is not carried out."""
    return STYLE.format('<text variable="title" text-case="uppercase"/>' * count), BIB, "[@a]"


def measured(program, folder, options, texts):
    """The bytes of these files, the instructions, and the bytes on standard error, of a run that refuses one of them."""
    paths = [os.path.join(folder, name) for name in ("s.csl", "a.bib", "d.txt")]
    for path, text in zip(paths, texts):
        with open(path, "w", encoding="utf-8") as out:
            out.write(text)
    style, bib, document = paths
    words = [program, *options, "--style", style, "--bib", bib, document]
    ran = subprocess.run(words, stdin=subprocess.DEVNULL, stdout=subprocess.DEVNULL, stderr=subprocess.PIPE)
    if ran.returncode != 1:
        sys.exit(f"{words} ended with status {ran.returncode}: {ran.stderr[:1000]}")
    return sum(map(os.path.getsize, paths)), instructions(words, folder, status=1), len(ran.stderr)


def main():
    program, is_met = built("cite_csl_program"), True
    with tempfile.TemporaryDirectory() as folder:
        for name, write, options in (("dates", dates, []), ("names", names, []), ("features", features, ["--strict"])):
            rows = [measured(program, folder, options, write(count)) for count in SIZES]
            for count, (size, ran, said) in zip(SIZES, rows):
                print(f"{name:>8} {count:>7} {size:>9} {ran:>14} {said:>10}", flush=True)
            (_, small, few), (_, large, many) = rows
            print(f"{name:>8} {large / small:.2f} times the instructions, {many / few:.2f} times the bytes")
            is_met = is_met and max(large / small, many / few) <= WANTED
    sys.exit(0 if is_met else 1)


main()
