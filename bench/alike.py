#!/usr/bin/env python3
"""Measures what it costs to disambiguate cites that print alike.

    bench/alike.py [PROGRAM] [N]

N articles, 10,000 where no other number is said, each cited once in a marker of its own, by authors and years: all of other authors; in
groups of 100 of one author and year, which year suffixes disambiguate; and in pairs, of which every other one needs a year suffix and the
others names:
half of these a given name, half the second of four authors; and all by one first author of four, where the second ones differ, so that every
cite prints the same until names disambiguate it. All come of a fixed seed. It prints the bytes of input, the instructions (by
`valgrind --tool=callgrind`), the seconds, the peak memory less that of a run on two empty files, and how many times the instructions of
the first case each case takes. What was found is written down where no number is said.
"""
import sys
import tempfile

import mixed
import results
from measuring import FilterRuns

WANTED = 3


def unlike(place):
    """An author of one work alone."""
    return f"Roe{place}, Ann"


def grouped(place):
    """The author of a hundred works."""
    return unlike(place // 100)


def paired(place):
    """The authors of one of two works."""
    pair, is_second = divmod(place, 2)
    if pair % 2 == 0:
        return unlike(pair)
    if pair % 4 == 1:
        return f"Roe{pair}, {'Bea' if is_second else 'Ann'}"
    return f"{unlike(pair)} and {'Poe, Cy' if is_second else 'Kwan, Bo'} and Lee, Di and Ng, Ed"


def crowded(place):
    """Four authors of which the second one is of one work alone."""
    return f"Roe, Ann and Kwan{place}, Bo and Lee, Di and Ng, Ed"


CASES = {"nothing alike": unlike, "groups of 100": grouped, "pairs": paired, "all alike": crowded}


def writer(authors):
    """What writes the articles by such authors, all of one year, in an order that is drawn."""
    def write(path, chance, count):
        places = list(range(count))
        chance.shuffle(places)
        with open(path, "w") as out:
            for place in range(mixed.JOURNALS):
                out.write(f"@string{{journal{place} = {{Journal {place}}}}}\n")
            out.writelines(mixed.article(chance, f"a{place}", authors(place), 2000) for place in places)
    return write


def draw_keys(chance, count):
    """Each key once, in an order that is drawn."""
    places = list(range(count))
    chance.shuffle(places)
    for place in places:
        yield f"a{place}"


def main():
    count = int(sys.argv[2]) if len(sys.argv) > 2 else 10_000
    rows = {}
    with tempfile.TemporaryDirectory() as folder:
        runs = FilterRuns(folder)
        for name, authors in CASES.items():
            print(name)
            table = runs.table("author-date", "plain")
            table.line(count, runs.write(count, writer(authors), draw_keys))
            rows[name] = table.rows[0]
            times = rows[name]["instructions"] / rows["nothing alike"]["instructions"]
            print(f"{times:.2f} times, {rows[name]['instructions'] / rows[name]['bytes']:.1f} instructions a byte")
    if len(sys.argv) <= 2:
        results.record("alike", {"script": "alike.py", "rows": rows, "wanted": WANTED})


main()
