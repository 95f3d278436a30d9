#!/usr/bin/env python3
"""Measures what a cite and an item of a bibliography cost by an author-date style, and nodes that are one inside the other.

    bench/rendering.py [PROGRAM]

PROGRAM is the program that runs cases. 1,000 articles with two authors come of a fixed seed, each in a case of its own. The instructions are those inside
`StyleContext::citation`, by `valgrind --tool=callgrind`; for the item the citation has the layout of the bibliography. Where the program has no name for
that function they are the difference of two runs, which counts some thousand more: in one of them each cite is disambiguated by its names, for which the same
cite is made once more before it (docs/CASES.md).

Then a text inside 0, 9, 99 and 199 groups, so that 1, 10, 100 and 200 nodes are one inside the other: the instructions of one cite, and its seconds of
the processor, by that difference over 200 cases. It ends with status 1 where a cite or an item costs more than is wanted.
"""
import json
import os
import random
import subprocess
import sys
import tempfile

import results
from measuring import WORDS, built, instructions, title

WANTED = {"cite": 15_000, "item": 40_000}
COUNT, DEEP = 1_000, 20
STYLE = {"categories": ["author-date"]}

LOCATOR = {"node": "group", "delimiter": " ", "nodes": [{"node": "label", "variable": "locator", "form": "short"}, {"node": "text", "variable": "locator"}]}
YEAR = {"node": "date", "variable": "issued", "date_parts": [{"name": "year"}]}
AUTHORS = {"node": "names", "variables": ["author"], "name": {"form": "long", "and": "text"}, "substitute": [{"node": "names", "variables": ["editor"]}]}
SHORT = dict(AUTHORS, name={"form": "short", "and": "text", "et_al_min": 4, "et_al_use_first": 1})
SOURCE = {"node": "group", "delimiter": ", ", "nodes": [
    {"node": "text", "variable": "container-title", "formatting": {"font_style": "italic"}}, {"node": "text", "variable": "volume"},
    {"node": "text", "variable": "page"}, {"node": "text", "variable": "publisher"}]}
CITE = [{"node": "group", "delimiter": ", ", "nodes": [{"node": "group", "delimiter": " ", "nodes": [SHORT, YEAR]}, LOCATOR]}]
ITEM = [{"node": "group", "delimiter": ". ", "nodes": [AUTHORS, YEAR, {"node": "text", "variable": "title"}, SOURCE]}]


def entry(chance):
    """An article with two authors."""
    people = " and ".join(chance.choice(WORDS).title() + ", " + chance.choice(WORDS).title() for _ in range(2))
    pages = f"{chance.randint(1, 99)}--{chance.randint(100, 400)}"
    return (
        f"@article{{k, author={{{people}}}, title={{{title(chance)}}}, journaltitle={{Journal of {chance.choice(WORDS)}}}, "
        f"volume={{{chance.randint(1, 99)}}}, pages={{{pages}}}, date={{{chance.randint(1900, 2025)}}}}}"
    )


def case(bib, nodes, is_twice=False):
    """A cite by a layout of these nodes, which is made once or twice."""
    told = {"add_name": 0} if is_twice else "none"
    style = dict(STYLE, citation={"layout": {"nodes": nodes}})
    return {"case": "citation", "bib": bib, "entry": "k", "style": style, "properties": {"is_first": True, "disambiguation": told}}


def deep(levels):
    """A text with groups round it, so many nodes in all, after a name, without which nothing would be disambiguated."""
    node = {"node": "text", "variable": "title"}
    for _ in range(levels - 1):
        node = {"node": "group", "nodes": [node]}
    return [{"node": "names", "variables": ["author"]}, node]


class Runs:
    """Runs of the program over files of cases."""

    def __init__(self, program, folder):
        self.program, self.folder = program, folder

    def written(self, cases):
        """The path of a file of cases."""
        path = os.path.join(self.folder, "cases")
        with open(path, "w", encoding="utf-8") as out:
            for one in cases:
                out.write(json.dumps(one, separators=(",", ":")) + "\n")
        return path

    def run(self, cases, inside=None):
        """The instructions of a run over cases, or those of it inside a function alone."""
        with open(self.written(cases), encoding="utf-8") as given:
            return instructions([self.program], self.folder, given, inside)

    def counted(self, bibs, nodes):
        """The instructions of one cite of an entry by a layout of these nodes."""
        once = [case(bib, nodes) for bib in bibs]
        ran = self.run(once, "StyleContext::citation")
        if ran == 0:
            ran = self.run([case(bib, nodes, True) for bib in bibs]) - self.run(once)
        return round(ran / len(bibs))

    def timed(self, cases):
        """The least seconds of the processor of ten runs over cases."""
        path = self.written(cases)
        return min(self.seconds(path) for _ in range(10))

    def seconds(self, path):
        """The seconds of the processor of one run over a file of cases."""
        with open(path, encoding="utf-8") as given:
            running = subprocess.Popen([self.program], stdin=given, stdout=subprocess.DEVNULL)
            _, status, usage = os.wait4(running.pid, 0)
        if status != 0:
            sys.exit(f"{self.program} ended with status {status}")
        return usage.ru_utime + usage.ru_stime

    def once(self, bibs, nodes):
        """The seconds of one cite of an entry by a layout of these nodes."""
        fewer, more = [self.timed([case(bib, nodes, is_twice) for bib in bibs]) for is_twice in (False, True)]
        return round(max(more - fewer, 0) / len(bibs), 6)


def main():
    with tempfile.TemporaryDirectory() as folder:
        runs = Runs(built("case_runner"), folder)
        chance = random.Random(COUNT)
        bibs = [entry(chance) for _ in range(COUNT)]
        costs = {name: runs.counted(bibs, nodes) for name, nodes in (("cite", CITE), ("item", ITEM))}
        for name, cost in costs.items():
            print(f"{name}: {cost} instructions, wanted at most {WANTED[name]}")
        rows = []
        for levels in (1, 10, 100, 200):
            nodes = deep(levels)
            ran = runs.counted(bibs[:DEEP], nodes)
            seconds = runs.once(bibs[:200], nodes)
            rows.append({"levels": levels, "instructions": ran, "seconds": seconds})
            print(f"{levels:>4} nodes: {ran:>11} instructions, {seconds:.6f} seconds")
    results.record("rendering", {"script": "rendering.py", "count": COUNT, "costs": costs, "wanted": WANTED, "rows": rows})
    if any(costs[name] > most for name, most in WANTED.items()):
        sys.exit(1)


main()
