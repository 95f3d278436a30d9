#!/usr/bin/env python3
"""Measures the program by numbers on N books and a document of N citations.

    bench/first_path.py [PROGRAM]

The bib file has N books of five lines, 130 to 150 bytes each; the document has a marker for each 60 bytes, with keys drawn
evenly. Both come of a fixed seed. For N = 1,000, 10,000 and 100,000 it prints the bytes of input, the instructions (by
`valgrind --tool=callgrind`), the seconds, and the peak memory less that of a run on two empty files. Then the instructions
for each byte of input between the smaller two (the difference over the difference), and the growth exponents of the
instructions from each size to the next.
"""
from measuring import WORDS, measure_filter, title


def book(chance, key):
    """A book of five lines, 130 to 150 bytes."""
    while True:
        lines = [
            "@book{" + key + ",",
            " author={" + chance.choice(WORDS).title() + ", " + chance.choice("ABCDEFGH") + ".},",
            " title={" + title(chance) + "},",
            " publisher={" + chance.choice(WORDS).title() + " & " + chance.choice(WORDS).title() + " Press},",
            " date={" + str(chance.randint(1900, 2025)) + "}}",
        ]
        text = "\n".join(lines) + "\n"
        if 130 <= len(text) <= 150:
            return text


def write_books(path, chance, count):
    """Writes so many books."""
    with open(path, "w") as out:
        out.write("".join(book(chance, f"k{place}") for place in range(count)))


def draw_keys(chance, count):
    """So many keys."""
    for _ in range(count):
        yield f"k{chance.randrange(count)}"


measure_filter("books", None, write_books, draw_keys)
