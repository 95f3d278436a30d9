#!/usr/bin/env python3
"""Measures what it costs to take references out of entries, to say whether these are settled, and to write them as a file.

    bench/writer.py [PROGRAM]

PROGRAM is the program that runs cases. The instructions of `flatten`, `is_settled` and `to_biblatex_string` are differences of two runs of it, by
`valgrind --tool=callgrind`: over a case that reads a file and shows the keys of its entries, and over one that also calls the function
(docs/CASES.md). An answer that has the written file costs what it takes to print it, too; this is the difference of two runs that read the same
text as a key, of which one prints it, and is taken off.

On 1,000 and 10,000 mixed entries, which come of a fixed seed, it prints the instructions of `flatten` for each entry, of `is_settled` for each byte
of keys, types, names and contents, and of `to_biblatex_string` for each byte that is written, by the difference of the two sizes, so that what does
not grow counts for nothing. Then for each of some texts of two sizes the instructions of each call, and the exponent by which they grow: many short
entries; one entry of many fields, whose names are in an order that is drawn; one content; entries of which the last two have one key; and entries
all of whose keys were changed, where all pairs of keys are compared. It ends with status 1 where a call costs more than is wanted.
"""
import json
import os
import random
import subprocess
import sys
import tempfile

import mixed
import results
from measuring import WORDS, built, exponent, instructions

WANTED = {"flatten": 1_000, "is_settled": 60, "to_biblatex_string": 60}
MEASURES = {"flatten": "entries", "is_settled": "held", "to_biblatex_string": "written"}
FLATTEN = {"step": "flatten"}


def mixed_file(folder, count):
    """A file of so many mixed entries."""
    path = os.path.join(folder, "b.bib")
    mixed.write(path, random.Random(count), count)
    with open(path, encoding="utf-8") as file:
        return file.read()


def short_entries(count):
    """So many entries of one field."""
    return "\n".join(f"@misc{{k{place}, title = {{T}}}}" for place in range(count))


def fields(count):
    """An entry of so many fields, in an order that is drawn."""
    places = list(range(count))
    random.Random(count).shuffle(places)
    return "@misc{k,\n" + "".join(f"f{place} = {{T}},\n" for place in places) + "}\n"


def content(count):
    """An entry of one field of so many bytes, with groups, escapes and formulas."""
    chance = random.Random(count)
    pieces = [*WORDS, "{NASA}", "\\&", "$x^2$", "a--b", "{\\\"u}ber"]
    parts, size = [], 0
    while size < count:
        parts.append(chance.choice(pieces))
        size += len(parts[-1]) + 1
    return "@misc{k, note = {" + " ".join(parts) + "}}\n"


def last_again(count):
    """A step that adds an entry of the last key once more."""
    return [{"step": "push", "key": f"k{count - 1}", "type": "misc"}]


def other_keys(count):
    """A step that gives each entry a key that is no name."""
    return [{"step": "set_keys", "keys": [f"x{place}" for place in range(count)]}]


TEXTS = {
    "short entries": (short_entries, None, (10_000, 100_000)),
    "fields of one entry": (fields, None, (10_000, 100_000)),
    "bytes of one content": (content, None, (1_000_000, 10_000_000)),
    "entries, the last two of one key": (short_entries, last_again, (10_000, 100_000)),
    "entries, all keys changed": (short_entries, other_keys, (1_000, 10_000)),
}


class Cases:
    """Runs of the program over a case each."""

    def __init__(self, program, folder):
        self.program, self.folder = program, folder

    def open(self, case):
        """A file that has the case alone, opened."""
        path = os.path.join(self.folder, "case")
        with open(path, "w", encoding="utf-8") as out:
            out.write(json.dumps({"case": "bibliography", **case}) + "\n")
        return open(path, encoding="utf-8")

    def answer(self, case):
        """What the program answers."""
        with self.open(case) as given:
            return json.loads(subprocess.run([self.program], stdin=given, capture_output=True, check=True).stdout)

    def instructions(self, bib, steps, show):
        """The instructions of a run that reads a file, takes the steps, and shows these members."""
        with self.open({"bib": bib, "steps": steps, "show": show}) as given:
            return instructions([self.program], self.folder, given)

    def printing(self, text):
        """The instructions of printing a text in an answer."""
        step = {"step": "push", "key": text, "type": "misc"}
        return self.instructions("", [step], ["keys"]) - self.instructions("", [step], ["references"])

    def row(self, bib, steps):
        """How much the calls handle once the steps are taken, and what they cost."""
        flattened = [*steps, FLATTEN]
        answer = self.answer({"bib": bib, "steps": flattened, "show": ["entries", "settled", "written"]})
        before, after, settled, written = (
            self.instructions(bib, *run)
            for run in ((steps, ["keys"]), (flattened, ["keys"]), (flattened, ["keys", "settled"]), (flattened, ["keys", "written"]))
        )
        return {
            "entries": len(answer["entries"]),
            "held": sum(map(held, answer["entries"])),
            "written": len(answer["written"].encode()),
            "settled": answer["settled"],
            "flatten": after - before,
            "is_settled": settled - after,
            "to_biblatex_string": written - after - self.printing(answer["written"]),
        }


def held(entry):
    """The bytes of an entry's key, type, names and contents."""
    contents = (text for chunks in entry["fields"].values() for chunk in chunks for text in chunk.values())
    return sum(len(text.encode()) for text in (entry["key"], entry["type"], *entry["fields"], *contents))


def said(row):
    """A row as it is printed."""
    return " ".join(f"{name} {value:,}" for name, value in row.items())


def rates(cases):
    """The instructions of each call on mixed entries, for each of what it handles."""
    small, large = (cases.row(mixed_file(cases.folder, count), []) for count in (1_000, 10_000))
    print(f"mixed entries: {said(small)}\n{said(large)}")
    return {call: round((large[call] - small[call]) / (large[of] - small[of]), 1) for call, of in MEASURES.items()}


def growth(cases, text):
    """The rows of the two sizes of a text, and the exponents by which the instructions of the calls grow."""
    write, steps, sizes = TEXTS[text]
    small, large = ({"N": count, **cases.row(write(count), steps(count) if steps else [])} for count in sizes)
    calls = [call for call, of in MEASURES.items() if large[of] > small[of]]
    exponents = {call: round(exponent(small[call], large[call], small["N"], large["N"]), 4) for call in calls}
    print(f"{text}: {said(small)}\n{said(large)}\n{exponents}", flush=True)
    return {"rows": [small, large], "exponents": exponents}


def main():
    with tempfile.TemporaryDirectory() as folder:
        cases = Cases(built("case_runner"), folder)
        found = rates(cases)
        for call, rate in found.items():
            print(f"{call}: {rate} instructions, wanted at most {WANTED[call]}", flush=True)
        runs = {text: growth(cases, text) for text in TEXTS}
    results.record("writer", {"script": "writer.py", "rates": found, "wanted": WANTED, "runs": runs})
    if any(found[call] > most for call, most in WANTED.items()):
        sys.exit(1)


main()
