#!/usr/bin/env python3
"""Measures the program `cite_csl` against `cite author-date` on the same entries and markers, without and with sort keys; and what it takes
to read a large style and a locale.

    bench/cite_csl.py [N]

The entries and the markers are those of bench/filter.py, N of each, 10,000 where no number is said. The style has the shape of
`author-date`: short names and years in citations, that disambiguate by more names and by year suffixes; names, year, title and what the
title stands in in items. With sort keys both are sorted by names, date and title. For each run it prints the instructions (by
`valgrind --tool=callgrind`), the seconds and the peak memory, and how many times the instructions of the run before it took.

Then the program runs on empty files, by a style of about 70 KB with a locale of about 22 KB, in lines as published ones have them, and by a
style of one node without a locale: what the first takes more is what it takes to read the two. It prints their bytes, and by how many
instructions and milliseconds of the processor the runs differ, each the least of 40.
"""
import os
import sys
import tempfile

import mixed
import results
from measuring import FilterRuns, instructions, least_processor_seconds, peak_and_seconds

HERE = os.path.dirname(os.path.abspath(__file__))
PROGRAM = os.path.join(HERE, "../crates/cite_csl_program/out/cite_csl_program")
SORT = '<sort><key macro="names"/><key variable="issued"/><key variable="title"/></sort>'
WANTED = {"unsorted": 1.15, "sorted": 1.15, "milliseconds": 5}
SPACE = 'xmlns="http://purl.org/net/xbiblio/csl" version="1.0"'
LARGE, RUNS = 70_000, 40
FORMS = ("long", "short", "symbol")
TERMS = (
    "accessed and and-others anonymous at by circa cited et-al forthcoming from ibid in internet online reference retrieved book chapter figure folio "
    "issue line note opus page paragraph part section verse volume edition version author editor director illustrator translator composer interviewer "
    "ordinal ordinal-01 ordinal-02 ordinal-03 long-ordinal-01 long-ordinal-02 month-01 month-02 month-03 month-04 month-05 month-06 month-07 month-08 "
    "month-09 month-10 month-11 month-12 season-01 season-02 season-03 season-04"
).split()


def style(sort):
    """The style, with these keys."""
    return f'''<style xmlns="http://purl.org/net/xbiblio/csl" class="in-text" version="1.0"><info/>
<macro name="names"><names variable="author"><name and="text" name-as-sort-order="first"/><substitute><names variable="editor"/>
<text variable="title"/></substitute></names></macro>
<macro name="short"><names variable="author"><name form="short" and="text"/><substitute><names variable="editor"/><text variable="title"/>
</substitute></names></macro>
<macro name="year"><choose><if variable="issued"><date variable="issued"><date-part name="year"/></date></if><else><text term="no date"
form="short"/></else></choose></macro>
<citation et-al-min="3" et-al-use-first="1" disambiguate-add-names="true" disambiguate-add-year-suffix="true">{sort}
<layout prefix="(" suffix=")" delimiter="; "><group delimiter=", "><text macro="short"/><text macro="year"/><text variable="locator"/></group>
</layout></citation>
<bibliography>{sort}<layout suffix="."><group delimiter=". "><text macro="names"/><text macro="year"/><text variable="title"
font-style="italic"/><group delimiter=", "><text variable="container-title"/><text variable="volume"/><text variable="page"/><text
variable="publisher"/><text variable="URL"/></group></group></layout></bibliography></style>'''


def large_macro(number):
    """A macro of a large style."""
    return f'''  <macro name="part-{number}">
    <choose>
      <if type="article-journal article-magazine article-newspaper" match="any">
        <group delimiter=", ">
          <text variable="container-title" font-style="italic" text-case="title"/>
          <group>
            <text variable="volume" font-style="italic"/>
            <text variable="issue" prefix="(" suffix=")"/>
          </group>
          <text variable="page"/>
        </group>
      </if>
      <else-if variable="editor translator" match="any">
        <names variable="editor translator" delimiter=", " suffix=".">
          <name and="symbol" initialize-with=". " delimiter=", " et-al-min="3" et-al-use-first="1"/>
          <label form="short" prefix=" (" suffix=")" text-case="title"/>
          <substitute>
            <text variable="title"/>
          </substitute>
        </names>
      </else-if>
      <else>
        <group prefix=" (" suffix=")" delimiter=" ">
          <text term="retrieved" text-case="capitalize-first"/>
          <date variable="issued" delimiter=" ">
            <date-part name="month"/>
            <date-part name="day" suffix=","/>
            <date-part name="year"/>
          </date>
        </group>
      </else>
    </choose>
  </macro>
'''


def large_style():
    """A style of about 70 KB."""
    parts = [f'<?xml version="1.0" encoding="utf-8"?>\n<style {SPACE} class="in-text">\n  <info/>\n']
    size = 0
    while size < LARGE:
        parts.append(large_macro(len(parts)))
        size += len(parts[-1])
    calls = "".join(f'        <text macro="part-{number}"/>\n' for number in range(1, len(parts)))
    parts.append(f'''  <citation>
    <sort>
      <key macro="part-1"/>
    </sort>
    <layout prefix="(" suffix=")" delimiter="; ">
      <text macro="part-1"/>
    </layout>
  </citation>
  <bibliography>
    <layout suffix=".">
      <group delimiter=". ">
{calls}      </group>
    </layout>
  </bibliography>
</style>
''')
    return "".join(parts)


def large_locale():
    """A locale of about 22 KB: each of the terms in all forms."""
    terms = "".join(
        f'    <term name="{term}" form="{form}">\n      <single>{term}</single>\n      <multiple>{term}s</multiple>\n    </term>\n'
        for form in FORMS for term in TERMS)
    return f'<?xml version="1.0" encoding="utf-8"?>\n<locale {SPACE} xml:lang="en-US">\n  <info/>\n  <terms>\n{terms}  </terms>\n</locale>\n'


def written(folder, name, text):
    """The path of a file with that text."""
    path = os.path.join(folder, name)
    with open(path, "w", encoding="utf-8") as file:
        file.write(text)
    return path


def reading(folder):
    """What it takes to read a large style and a locale."""
    small = f'<style {SPACE} class="in-text"><info/><citation><layout><text variable="title"/></layout></citation></style>'
    empty = ["--bib", written(folder, "e.bib", ""), written(folder, "e.txt", "")]
    texts = large_style(), large_locale()
    large = ["--style", written(folder, "large.csl", texts[0]), "--locale", written(folder, "large.xml", texts[1])]
    runs = [PROGRAM, *large, *empty], [PROGRAM, "--style", written(folder, "small.csl", small), *empty]
    took = [(instructions(words, folder), least_processor_seconds(words, RUNS)) for words in runs]
    return {"bytes": [len(text) for text in texts], "instructions": took[0][0] - took[1][0],
            "milliseconds": round((took[0][1] - took[1][1]) * 1000, 1)}


def measured(words, folder):
    """The figures of a run."""
    memory, seconds = peak_and_seconds(words)
    return {"instructions": instructions(words, folder), "seconds": round(seconds, 2), "memory": memory}


def main():
    count = int(sys.argv[1]) if len(sys.argv) > 1 else 10_000
    del sys.argv[1:]
    found, before = {}, None
    with tempfile.TemporaryDirectory() as folder:
        runs = FilterRuns(folder)
        size = runs.write(count, mixed.write, mixed.draw_keys)
        print(f"{count} entries and markers, {size} bytes")
        words = {"cite": runs.words("author-date", "plain")}
        for name, sort in (("unsorted", ""), ("sorted", SORT)):
            words[name] = [PROGRAM, "--style", written(folder, f"{name}.csl", style(sort)), "--bib", runs.bib, runs.text]
        for name, line in words.items():
            row = measured(line, folder)
            times = row["instructions"] / before if before else 1
            before = row["instructions"]
            found[name] = {**row, "times": round(times, 3)}
            print(f"{name:>8} {row['instructions']:>14} {row['seconds']:>8.2f} {row['memory']:>11} {times:>7.3f}", flush=True)
        read = reading(folder)
        print(f"reading: {read['bytes']} bytes, {read['instructions']} instructions, {read['milliseconds']} ms")
    if count == 10_000:
        results.record("cite_csl", {"script": "cite_csl.py", "runs": found, "reading": read, "wanted": WANTED})


main()
