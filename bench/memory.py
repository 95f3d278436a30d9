#!/usr/bin/env python3
"""Measures the memory of texts of which much is made by few bytes.

    bench/memory.py [PROGRAM]

PROGRAM is the filter. 2,000 xdata entries in a chain, of which the first has 2,000 fields, and a book that refers to the last one; as many of
which the first has a publisher of 100,000 bytes and a date; 1,000 chapters of one book with such a publisher; 1,000 books whose title is an
abbreviation of as many bytes; as many that have it in two fields, of which one is verbatim; each with a document that cites one work, and of
chapters and titles with one that cites all. For each it prints the bytes that are read and those that are printed, the seconds, the peak memory
less that of a run on two empty files, and how many times what is read and printed it is. It ends with status 1 where one of them takes more
than 40 times that.
"""
import os
import sys
import tempfile

import results
from measuring import FilterRuns, peak_and_seconds

WANTED = 40
ENTRIES, FIELDS, WORKS, LENGTH = 2_000, 2_000, 1_000, 100_000


def chain(first):
    """A chain of xdata entries, of which the first has these fields, and a book that refers to the last one."""
    lines = [f"@xdata{{x{place + 1}, xdata={{x{place}}}}}\n" for place in range(ENTRIES - 1)]
    return f"@xdata{{x0, {first}}}\n" + "".join(lines) + f"@book{{k0, xdata={{x{ENTRIES - 1}}}, title={{T}}}}\n"


def many_fields():
    """Fields of as many names."""
    return ", ".join(f"f{place}={{a}}" for place in range(FIELDS))


def long_field():
    """A publisher with a long name."""
    return "publisher={" + "p" * LENGTH + "}"


def chapters():
    """Chapters of one book."""
    lines = [f"@inbook{{k{place}, author={{N{place}}}, crossref={{b}}, title={{T{place}}}}}\n" for place in range(WORKS)]
    return "".join(lines) + "@book{b, title={B}, date={2014}, " + long_field() + "}\n"


def abbreviated(fields):
    """Books of these fields, by an abbreviation."""
    return "@string{s = {" + "s" * LENGTH + "}}\n" + "".join(f"@book{{k{place}, author={{N{place}}}, {fields}}}\n" for place in range(WORKS))


def markers(count):
    """A document with a marker for each of so many works."""
    return "".join(f"[@k{place}]\n" for place in range(count))


def texts():
    """Each name with a file, a document, and how many times what is read and printed is wanted at most."""
    yield "a chain of xdata entries from one of many fields", chain(many_fields()), markers(1), WANTED
    yield "a chain of xdata entries from one of a long field", chain(long_field() + ", date={2014}"), markers(1), WANTED
    yield "chapters of one book, one cited", chapters(), markers(1), WANTED
    yield "chapters of one book, all cited", chapters(), markers(WORKS), WANTED
    yield "titles by one abbreviation, one cited", abbreviated("title = s"), markers(1), WANTED
    yield "titles by one abbreviation, all cited", abbreviated("title = s"), markers(WORKS), WANTED
    yield "notes and addresses by one abbreviation, one cited", abbreviated("title = {T}, note = s, url = s"), markers(1), WANTED


def written(path, text):
    """Writes a file, and gives how many bytes it has."""
    with open(path, "w") as out:
        out.write(text)
    return os.path.getsize(path)


def main():
    found, fails = [], 0
    print(f"{'text':<50} {'read':>9} {'printed':>11} {'seconds':>8} {'memory':>13} {'times':>8}")
    with tempfile.TemporaryDirectory() as folder:
        runs, out = FilterRuns(folder), os.path.join(folder, "out")
        words = runs.words("author-date", "plain")
        written(runs.bib, "")
        written(runs.text, "")
        empty, _ = peak_and_seconds(words)
        for name, bib, document, wanted in texts():
            read = written(runs.bib, bib) + written(runs.text, document)
            peak, seconds = peak_and_seconds(words, out)
            printed, memory = os.path.getsize(out), peak - empty
            times = memory / (read + printed)
            fails += times > wanted
            found.append({"text": name, "read": read, "printed": printed, "seconds": round(seconds, 2), "memory": memory, "wanted": wanted})
            print(f"{name:<50} {read:>9} {printed:>11} {seconds:>8.2f} {memory:>13} {times:>8.1f}", flush=True)
    results.record("memory", {"rows": found})
    if fails:
        sys.exit(f"{fails} of {len(found)} take more than is wanted")


main()
