#!/usr/bin/env python3
"""Measures that texts which collide under the hash of the kit's maps cost no more than others.

    bench/collisions.py [PROGRAM]

PROGRAM is the filter. The hash has a fixed seed, so that anybody can make texts that collide in all of its bits: it takes 16 bytes at a time,
and where the first eight of them are what it has come to, the other eight are free. BibLaTeX files of N = 4,000 and 16,000 entries have
such texts, or texts of the same length that begin otherwise and do not collide: as keys, as further names of entries, as names of
abbreviations, as keys that are all cited, and in what is printed: as cites of authors that have one family name each, as cites of four
authors, of which the second one disambiguates what would print alike, and as cites of titles. That all texts of a file collide, or no two
of them, is checked by the hash, which is written out below. For each kind it prints the bytes, the instructions (by `valgrind
--tool=callgrind`) and the seconds with both, and how many times the instructions of the others those of the texts that collide are; at the
end whether each is at most 1.3.
"""
import os
import sys
import tempfile
from typing import Callable, NamedTuple

import results
from measuring import built, instructions, peak_and_seconds

SIZES = (4_000, 16_000)
WANTED = 1.3
INITIAL, MULTIPLIER, WORD = 0x243F6A8885A308D3, 0x9E3779B97F4A7C15, 2**64


def folded(left, right):
    """The halves of a product, of which each bit is in one of the two."""
    high, low = divmod(left * right, WORD)
    return high ^ low


def number(text, place):
    """Eight bytes as a number."""
    return int.from_bytes(text[place:place + 8], "little")


def hash_of(text):
    """The hash of a text of more than eight bytes, before its end is told."""
    state = (INITIAL + len(text)) % WORD
    for place in [*range(0, len(text) - 16, 16), len(text) - 16]:
        state = folded(number(text, place) ^ state, number(text, place + 8) ^ MULTIPLIER)
    return state


class Kind(NamedTuple):
    """What a file is, by names in texts; how texts begin that collide, what ends them, and how long they are; how much of a text is printed
    before the name; the style; which keys the document cites, by how many entries there are and the names."""

    write: Callable
    beginning: str
    ending: str
    length: int
    before: int
    style: str
    cited: Callable

    def texts(self, count, collide):
        """So many texts, which collide or do not."""
        beginning = self.beginning if collide else self.beginning[:-1] + "0"
        space = self.length - len(self.ending)
        texts = [f"{beginning}{place:08}".ljust(space, "s") + self.ending for place in range(count)]
        hashes = len({hash_of(text.encode()) for text in texts})
        if hashes != (1 if collide else count):
            sys.exit(f"{count} texts that begin with {beginning} have {hashes} hashes")
        return texts

    def name(self, text):
        """The name in a text."""
        return text[self.before:self.length - len(self.ending)]


def with_keys(names):
    """Entries under the names as keys."""
    return "".join(f"@misc{{{name}, title={{T}}}}\n" for name in names)


def with_aliases(names):
    """Entries with the names as further ones."""
    return "".join(f"@misc{{k{place}, ids={{{name}}}, title={{T}}}}\n" for place, name in enumerate(names))


def with_abbreviations(names):
    """Abbreviations of the names, each used in an entry."""
    definitions = "".join(f"@string{{{name} = \"P\"}}\n" for name in names)
    return definitions + "".join(f"@misc{{k{place}, title={name}}}\n" for place, name in enumerate(names))


def with_families(names):
    """Works of one year and of one author each."""
    return "".join(f"@misc{{k{place}, author={{{{{name}}}, Ann}}, title={{T}}, date={{2001}}}}\n" for place, name in enumerate(names))


def with_seconds(names):
    """Works of one year and of four authors, of which the second ones differ."""
    return "".join(
        f"@misc{{k{place}, author={{Lee, Ann and {{{name}}}, Bo and Roe, Cy and Poe, Di}}, title={{T}}, date={{2001}}}}\n"
        for place, name in enumerate(names)
    )


def with_titles(names):
    """Works of which a note prints the title alone."""
    return "".join(f"@misc{{k{place}, title={{{name}}}}}\n" for place, name in enumerate(names))


def first(names):
    """The first name."""
    return names[:1]


def named(names):
    """All names."""
    return names


def numbered(names):
    """The keys of all entries, which are numbered."""
    return [f"k{place}" for place in range(len(names))]


NAME = ("rhggbvagcqlczokx-z+4u4^<", "", 32, 0)
KINDS = {
    "keys": Kind(with_keys, *NAME, "author-date", first),
    "aliases": Kind(with_aliases, *NAME, "author-date", first),
    "abbreviations": Kind(with_abbreviations, *NAME, "author-date", lambda names: ["k0"]),
    "cited keys": Kind(with_keys, *NAME, "author-date", named),
    "family names": Kind(with_families, "0UAqFzWsDK4Fair34zIn8YDH", " 2001", 48, 0, "author-date", numbered),
    "second authors": Kind(with_seconds, "Lee, 0UAqFzWab2gqeyGhV9S", ", et al. 2001", 48, 5, "author-date", numbered),
    "titles": Kind(with_titles, "0UAqFzWsDK4Fair34zIn8YDH", "", 48, 0, "note", numbered),
}


def measured(program, folder, kind, names):
    """The bytes, the instructions and the seconds of one run with the names."""
    bib, text = os.path.join(folder, "b.bib"), os.path.join(folder, "d.txt")
    with open(bib, "w") as out:
        out.write(kind.write(names))
    with open(text, "w") as out:
        out.write("".join(f"[@{key}]\n" for key in kind.cited(names)))
    words = [program, kind.style, "plain", bib, text]
    size = os.path.getsize(bib) + os.path.getsize(text)
    _, seconds = peak_and_seconds(words)
    return {"bytes": size, "instructions": instructions(words, folder), "seconds": round(seconds, 2)}


def compared(program, folder, title, count):
    """The row of a kind and a size."""
    kind = KINDS[title]
    others, colliding = [
        measured(program, folder, kind, [kind.name(text) for text in kind.texts(count, collide)]) for collide in (False, True)
    ]
    times = colliding["instructions"] / others["instructions"]
    figures = " ".join(f"{row['instructions']:>14} {row['seconds']:>7.2f}" for row in (others, colliding))
    print(f"{title:<14} {count:>6} {others['bytes']:>9} {figures} {times:>6.2f}", flush=True)
    return {"N": count, "others": others, "colliding": colliding, "times": round(times, 3)}


def main():
    program = built("cite_program")
    print(f"{'kind':<14} {'N':>6} {'bytes':>9} {'others':>14} {'s':>7} {'colliding':>14} {'s':>7} {'times':>6}")
    with tempfile.TemporaryDirectory() as folder:
        found = {kind: [compared(program, folder, kind, count) for count in SIZES] for kind in KINDS}
    worst = max(row["times"] for rows in found.values() for row in rows)
    print(f"at most {worst:.2f} times; wanted: at most {WANTED}")
    results.record("collisions", {"script": "collisions.py", "runs": found, "wanted": WANTED})
    return 0 if worst <= WANTED else 1


if __name__ == "__main__":
    sys.exit(main())
