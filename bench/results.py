"""What the measuring scripts found last, in bench/results.json, and the pages docs/PERFORMANCE.md and docs/REAL-FILES.md, which are
written from it alone. Run as a script it writes the pages anew and measures nothing."""
import datetime
import json
import os
import subprocess

TOP = os.path.realpath(os.path.join(os.path.dirname(os.path.abspath(__file__)), ".."))
RESULTS = os.path.join(TOP, "bench", "results.json")

HEAD = """# Cost

The scripts under bench/ make their input from a fixed seed, run a built program on it, and write this page. Instructions are counted
by `valgrind --tool=callgrind`; memory is the peak of the process less that of a run on empty files. Instructions for each byte of input
are those between the smaller two sizes, growth exponents those of the instructions from each size to the next. Seconds tell of the machine
and of what else it did.
"""

FILTER = """## The filter

    bench/filter.py

`cite` on a BibLaTeX file of N mixed entries, 335 bytes each, and a document with N markers, one for each 60 bytes, whose keys are drawn evenly.
Of four entries two are articles in journals that have abbreviations, one is a book, and one a chapter that refers to it; with accents, groups,
verbatim addresses and math.
"""

ONE = """## Many cites in one marker

    bench/one_marker.py

`cite` on a BibLaTeX file of N of the same entries and a line with one marker of N cites, whose keys are drawn evenly.
"""

FEW = """## A large file of which little is cited

    bench/few_markers.py

`cite` in plain text on 100,000 of the same entries and a document with 1,000 markers.
"""

ALIKE = """## Cites that print alike

    bench/alike.py

`cite author-date plain` on articles of one year that are cited once each, in markers of their own: all by other authors; in groups of 100 by one
author, which year suffixes disambiguate; in pairs, of which every other one needs a year suffix and the others names; and all by one first author of four,
where the second ones disambiguate them.
"""

ALIKE_FILES = """## Files that were changed

    bench/alike_files.py

What it takes `are_alike` of `cite_uses` to say that a document has to be rendered again or not once its file was changed, with what reads
the markers, and without what reads the files and makes their libraries: a document of N markers, and a file that has one more entry
afterwards, which is not cited. It cites one entry with a title of 10 N bytes, by its key or by N aliases, or N entries, of a file of as
many or of ten times as many.
"""

BLOCKS = """## Blocks of one citation

    bench/blocks.py

A case of N books, and of one marker that cites all of them, by a style that prints family names, or an editor or a title in their place, and
gathers the cites of the same names: each cite is a block by itself. The books are by N authors of one family name, or by N editors of one, or
by nobody and of N titles, or of one title in which other letters are formulas.
"""

COLLISIONS = """## Texts that collide

    bench/collisions.py

`cite` on files of N entries with texts that all have one value under the hash of the kit's maps, and with others of the same length, of which
no two have one value. They are names in the file, or what its cites print (`bench/collisions.py` says what each is).
"""

TABLES = {
    "books": ("Plain books", """`cite` on books of five lines of 130 to 150 bytes in all, and a document with a marker for each 60 bytes, keys drawn evenly."""),
    "reader": ("The reader", """`bib_show` on the file of mixed entries."""),
}

WRITER = """## Written files

    bench/writer.py

What the methods of `Bibliography` cost that take `crossref` out of its entries, say whether they are settled, and write them as a file: on the same
mixed entries, for each entry or byte by which 10,000 of them have more than 1,000. `is_settled` looks at the bytes of keys, types, names and
contents. Then all that each costs on texts of which one part grows, where a call has more to do as it grows. Of entries all
of whose keys were changed, `is_settled` compares all pairs of keys.
"""

DEEP = """## Deep and doubled texts

`bib_show` with a stack of 8 MB on texts that nest deeply, or whose abbreviations and references go on and on (`bench/deep.py` says what
each is).
"""

MEMORY = """## Memory in proportion

    bench/memory.py

`cite author-date plain` on texts of which much is made by few bytes (`bench/memory.py` says what each is).
"""

CITE_CSL = """## Styles of CSL files

    bench/cite_csl.py

`cite` by `author-date`, and `cite_csl` by a style of that shape in a file, on 10,000 of the same entries and a document with 10,000 markers, in plain
text. The style has no sort keys, or sorts cites and bibliography by names, date and title.
"""

CSL = """## Large files of CSL

`case_runner` with a stack of 8 MB on a case of the kind `csl_file` whose text is a style or a locale that is large in one way (`bench/csl.py` says
what each is). The memory is that of the whole run, which holds the case too.
"""

RENDERING = """## Cites and items

    bench/rendering.py

What one call of `StyleContext::citation` costs by an author-date style, over 1,000 entries with two authors, and what the item of a bibliography
costs; then a cite that prints one text in so many nodes, one inside the other.
"""

REAL = """# Files as people have them

`bench/real_files.py` gives each .bib file below a folder to `cite` with an empty document, and writes this page.
"""


def read():
    """What was found."""
    if not os.path.exists(RESULTS):
        return {}
    with open(RESULTS, encoding="utf-8") as file:
        return json.load(file)


def said_by_git(*words):
    """What git says of this repository."""
    return subprocess.run(["git", *words], cwd=TOP, check=True, capture_output=True, text=True).stdout.strip()


def commit():
    """The commit of the crates that are measured, with a mark where they differ from it."""
    is_changed = said_by_git("status", "--porcelain", "--", "crates", "crates.txt")
    return said_by_git("rev-parse", "--short=7", "HEAD") + ("-dirty" if is_changed else "")


def record(name, found):
    """Writes down what a script found, with the day and the commit, and writes the pages anew."""
    everything = read()
    everything[name] = {"date": datetime.date.today().isoformat(), "commit": commit(), **found}
    with open(RESULTS, "w", encoding="utf-8") as file:
        json.dump(everything, file, indent=1, sort_keys=True)
        file.write("\n")
    write_pages()


def number(value):
    """A number with its thousands parted."""
    return f"{value:,}"


def measured(found):
    """When and at which commit something was measured."""
    return f"Measured on {found['date']} at commit {found['commit']}."


def size_table(name, found):
    """The part of the page about a script that measures three sizes."""
    title, about = TABLES[name]
    rows = [
        f"| {number(row['N'])} | {number(row['bytes'])} | {number(row['instructions'])} | {row['seconds']} | {number(row['memory'])} "
        f"| {row['memory'] / row['bytes']:.1f} |"
        for row in found["rows"]
    ]
    bounds = found["wanted"]
    said = f"{found['rate']} instructions for each byte of input, growth exponents {' and '.join(map(str, found['exponents']))}."
    if bounds:
        said += f" Wanted: at most {bounds['rate']}, at most {bounds['exponent']}, and memory at most {bounds['memory']} times the input."
    return "\n".join([
        f"## {title}",
        "",
        f"    bench/{found['script']}",
        "",
        about,
        "",
        "| N | bytes of input | instructions | seconds | memory | times the input |",
        "|---|---|---|---|---|---|",
        *rows,
        "",
        f"{said} {measured(found)}",
        "",
    ])


def per_byte(row):
    """The instructions for each byte of a size, and its memory in times of the input."""
    return f"{row['instructions'] / row['bytes']:.0f}", f"{row['memory'] / row['bytes']:.1f}"


def runs_of(found):
    """The tables of a script that measures three sizes in several styles and formats."""
    rows = []
    for name, run in found["runs"].items():
        for row in run["rows"]:
            rows.append(f"| {name} | {number(row['N'])} | {number(row['bytes'])} | {number(row['instructions'])} | {row['seconds']} | {number(row['memory'])} "
                        f"| {row['memory'] / row['bytes']:.1f} |")
    rates = [f"| {name} | {run['rate']} | {' | '.join(map(str, run['exponents']))} |" for name, run in found["runs"].items()]
    return [
        "| style, format | N | bytes of input | instructions | seconds | memory | times the input |",
        "|---|---|---|---|---|---|---|",
        *rows,
        "",
        "| style, format | instructions for each byte of input | growth exponent from 1,000 to 10,000 | from 10,000 to 100,000 |",
        "|---|---|---|---|",
        *rates,
        "",
    ]


def filter_table(found):
    """The part of the page about the filter in each style and format."""
    wanted = found["wanted"]
    return "\n".join([
        FILTER,
        *runs_of(found),
        "Of more entries a larger share prints alike by author and year, and such cites are printed once more: for that `author-date` grows faster "
        "than its input.",
        "",
        f"Wanted: at most {wanted['rate']}, at most {wanted['exponent']}, and memory at most {wanted['memory']} times the input. {measured(found)}",
        "",
    ])


def one_table(found):
    """The part of the page about many cites in one marker."""
    return "\n".join([ONE, *runs_of(found), measured(found), ""])


def few_table(found):
    """The part of the page about a large file of which little is cited."""
    rows = []
    for name, row in found["rows"].items():
        rate, times = per_byte(row)
        rows.append(f"| {name} | {number(row['bytes'])} | {number(row['instructions'])} | {rate} | {row['seconds']} | {number(row['memory'])} | {times} |")
    wanted = found["wanted"]
    return "\n".join([
        FEW,
        "| style | bytes of input | instructions | for each byte | seconds | memory | times the input |",
        "|---|---|---|---|---|---|---|",
        *rows,
        "",
        f"Wanted: at most {wanted['rate']} instructions for each byte, and memory at most {wanted['memory']} times the input. {measured(found)}",
        "",
    ])


def alike_table(found):
    """The part of the page about cites that print alike."""
    first = found["rows"]["nothing alike"]
    rows = []
    for name, row in found["rows"].items():
        rate, times = per_byte(row)
        rows.append(f"| {name} | {number(row['N'])} | {number(row['bytes'])} | {number(row['instructions'])} | {rate} "
                    f"| {row['instructions'] / first['instructions']:.2f} | {row['seconds']} | {times} |")
    return "\n".join([
        ALIKE,
        "| articles | N | bytes of input | instructions | for each byte | times those of nothing alike | seconds | memory, times the input |",
        "|---|---|---|---|---|---|---|---|",
        *rows,
        "",
        f"Wanted: at most {found['wanted']} times those of nothing alike. {measured(found)}",
        "",
    ])


def alike_files_table(found):
    """The part of the page about files that were changed."""
    rows = []
    for name, run in found["runs"].items():
        for row, growth in zip(run["rows"], ["", run["exponent"]]):
            rows.append(f"| {name} | {number(row['N'])} | {number(row['bytes'])} | {number(row['instructions'])} | {growth} |")
    return "\n".join([
        ALIKE_FILES,
        "| cited | N | bytes of the document | instructions | growth exponent from the size before |",
        "|---|---|---|---|---|",
        *rows,
        "",
        f"Wanted: growth exponents of at most {found['wanted']}. {measured(found)}",
        "",
    ])


def blocks_table(found):
    """The part of the page about the blocks of one citation."""
    rows = []
    for name, run in found["runs"].items():
        for row, growth in zip(run["rows"], ["", *run["exponents"]]):
            rows.append(f"| {name} | {number(row['N'])} | {number(row['bytes'])} | {number(row['instructions'])} | {row['seconds']} | {growth} |")
    return "\n".join([
        BLOCKS,
        "| books | N | bytes of the case | instructions | seconds | growth exponent from the size before |",
        "|---|---|---|---|---|---|",
        *rows,
        "",
        measured(found),
        "",
    ])


def collisions_table(found):
    """The part of the page about texts that collide."""
    rows = []
    for name, run in found["runs"].items():
        for row in run:
            others, colliding = row["others"], row["colliding"]
            rows.append(f"| {name} | {number(row['N'])} | {number(others['bytes'])} | {number(others['instructions'])} | {others['seconds']} "
                        f"| {number(colliding['instructions'])} | {colliding['seconds']} | {row['times']:.2f} |")
    return "\n".join([
        COLLISIONS,
        "| texts | N | bytes of input | instructions of others | seconds | instructions of those that collide | seconds | times |",
        "|---|---|---|---|---|---|---|---|",
        *rows,
        "",
        f"Wanted: at most {found['wanted']} times those of others. {measured(found)}",
        "",
    ])


PARTS = {
    "filter": filter_table,
    "one_marker": one_table,
    "few_markers": few_table,
    "alike": alike_table,
    "alike_files": alike_files_table,
    "blocks": blocks_table,
    "collisions": collisions_table,
}


def deep_table(found):
    """The part of the page about deep texts."""
    rows = [f"| {row['text']} | {number(row['bytes'])} | {row['status']} | {row['seconds']} | {number(row['memory'])} |" for row in found["rows"]]
    return "\n".join([DEEP, "| text | bytes | status | seconds | memory |", "|---|---|---|---|---|", *rows, "", measured(found), ""])


def memory_table(found):
    """The part of the page about memory in proportion."""
    rows = [
        f"| {row['text']} | {number(row['read'])} | {number(row['printed'])} | {row['seconds']} | {number(row['memory'])} "
        f"| {row['memory'] / (row['read'] + row['printed']):.1f} | {row['wanted'] or ''} |"
        for row in found["rows"]
    ]
    head = ["| text | bytes read | bytes printed | seconds | memory | times both | wanted, at most |", "|---|---|---|---|---|---|---|"]
    return "\n".join([MEMORY, *head, *rows, "", measured(found), ""])


def csl_table(found):
    """The part of the page about large files of CSL."""
    rows = [
        f"| {row['text']} | {number(row['bytes'])} | `{row['answer']}` | {row['seconds']} | {number(row['memory'])} | {row['memory'] / row['bytes']:.1f} |"
        for row in found["rows"]
    ]
    return "\n".join([
        CSL,
        "| text | bytes | answer | seconds | memory | times the text |",
        "|---|---|---|---|---|---|",
        *rows,
        "",
        measured(found),
        "",
    ])


def cite_csl_table(found):
    """The part of the page about styles of CSL files."""
    names = {"cite": "`cite author-date`", "unsorted": "`cite_csl`, without sort keys", "sorted": "`cite_csl`, sorted"}
    rows = []
    for name, run in found["runs"].items():
        rows.append((run["instructions"], f"| {names[name]} | {number(run['instructions'])} | {run['times']} | {found['wanted'].get(name, '')} "
                     f"| {run['seconds']} | {number(run['memory'])} |"))
    return "\n".join([
        CITE_CSL,
        "| run | instructions | times those of the row above | wanted, at most | seconds | memory |",
        "|---|---|---|---|---|---|",
        *[row for _, row in sorted(rows)],
        "",
        *reading_lines(found),
        measured(found),
        "",
    ])


def reading_lines(found):
    """The lines about what it takes to read a large style and a locale, where that was measured."""
    if "reading" not in found:
        return []
    read = found["reading"]
    style, locale = (number(size) for size in read["bytes"])
    return [
        f"On empty files, by a style of {style} bytes with a locale of {locale} bytes, the program takes {number(read['instructions'])} instructions "
        f"and {read['milliseconds']} ms of the processor more than by a style of one node. Wanted: at most {found['wanted']['milliseconds']} ms.",
        "",
    ]


def writer_table(found):
    """The part of the page about written files."""
    parts = {"flatten": "each entry", "is_settled": "each byte that is looked at", "to_biblatex_string": "each byte that is written"}
    rates = [f"| `{call}`, for {part} | {number(found['rates'][call])} | {number(found['wanted'][call])} |" for call, part in parts.items()]
    rows, growth = [], []
    for name, run in found["runs"].items():
        for row in run["rows"]:
            costs = [number(row[call]) if call in run["exponents"] else "" for call in parts]
            rows.append(f"| {name} | {number(row['N'])} | {number(row['written'])} | {' | '.join(costs)} |")
        growth.append(f"| {name} | {' | '.join(str(run['exponents'].get(call, '')) for call in parts)} |")
    calls = " | ".join(f"`{call}`" for call in parts)
    return "\n".join([
        WRITER,
        "| | instructions | wanted at most |",
        "|---|---|---|",
        *rates,
        "",
        f"| text | N | bytes written | {calls} |",
        "|---|---|---|---|---|---|",
        *rows,
        "",
        f"| text | growth exponent of {calls} |",
        "|---|---|---|---|",
        *growth,
        "",
        measured(found),
        "",
    ])


def rendering_table(found):
    """The part of the page about cites and items."""
    costs = [f"| one {name} | {number(cost)} | {number(found['wanted'][name])} |" for name, cost in found["costs"].items()]
    rows = [f"| {row['levels']} | {number(row['instructions'])} | {row['seconds']:.6f} |" for row in found["rows"]]
    return "\n".join([
        RENDERING,
        "| | instructions | wanted at most |",
        "|---|---|---|",
        *costs,
        "",
        "| nodes one inside the other | instructions | seconds |",
        "|---|---|---|",
        *rows,
        "",
        measured(found),
        "",
    ])


def real_page(found):
    """The page about files as people have them."""
    rows = [f"| {row['files']} | {row['answer']} | {row['example']} |" for row in found["rows"]]
    return "\n".join([
        REAL,
        f"{found['source']}: {number(found['files'])} files, the longest of {number(found['longest'])} bytes.",
        "",
        "| Files | Answer | One of them |",
        "|---|---|---|",
        *rows,
        "",
        measured(found),
        "",
    ])


def write_pages():
    """Writes the pages."""
    found = read()
    parts = [HEAD] + [part(found[name]) for name, part in PARTS.items() if name in found]
    parts += [size_table(name, found[name]) for name in TABLES if name in found]
    parts += [writer_table(found["writer"])] if "writer" in found else []
    parts += [deep_table(found["deep"])] if "deep" in found else []
    parts += [memory_table(found["memory"])] if "memory" in found else []
    parts += [csl_table(found["csl"])] if "csl" in found else []
    parts += [cite_csl_table(found["cite_csl"])] if "cite_csl" in found else []
    parts += [rendering_table(found["rendering"])] if "rendering" in found else []
    with open(os.path.join(TOP, "docs", "PERFORMANCE.md"), "w", encoding="utf-8") as file:
        file.write("\n".join(parts).rstrip("\n") + "\n")
    if "real_files" in found:
        with open(os.path.join(TOP, "docs", "REAL-FILES.md"), "w", encoding="utf-8") as file:
            file.write(real_page(found["real_files"]).rstrip("\n") + "\n")


if __name__ == "__main__":
    write_pages()
