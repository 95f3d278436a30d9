#!/usr/bin/env python3
"""Runs the program that shows what was read over texts that nest deeply or refer on and on, with a stack of 8 MB.

    bench/deep.py [PROGRAM]

A title of 1,000,000 groups in one another, 10 MB of opening braces, 100,000 abbreviations of which each opens the next, once with a
note that opens the first and once with one that opens it 100,000 times, 100,000 abbreviations of which each doubles the one before and that
give nothing, 40,000 notes that open names of 100,000 bytes, an address of 200,000 pieces, 100,000 entries of which each refers to the
next, as many of which the last one refers to the first, and 1,000,000 books of either kind. For each it prints the bytes of the text, the
status and the one that is awaited, the seconds and the peak memory. It ends with status 1 where a status is another one, or where one of the
books in a chain lacks the publisher, which only the last one has by itself.
"""
import os
import resource
import subprocess
import sys
import tempfile
import time

import results
from measuring import built

STACK = 8 << 20
PUBLISHER = b"  publisher = P\n"


def groups(count):
    """A title of so many groups in one another."""
    return "@book{a, title={" + "{" * count + "x" + "}" * count + "}}\n"


def braces(count):
    """A value of so many opening braces, and no more."""
    return "@book{a, title=" + "{" * count


def abbreviations(count):
    """So many abbreviations, each opening the next, and a note that opens the first."""
    lines = [f"@string{{s{place} = s{place + 1}}}" for place in range(count - 1)]
    return "\n".join(lines) + f"\n@string{{s{count - 1} = {{x}}}}\n@misc{{k, note = s0}}\n"


def names(count):
    """So many abbreviations, each opening the next, and a note that opens the first as often."""
    lines = [f"@string{{s{place} = s{place + 1}}}" for place in range(count - 1)]
    return "\n".join(lines) + f"\n@string{{s{count - 1} = {{x}}}}\n@misc{{k, note = " + " # ".join(["s0"] * count) + "}\n"


def doubled(count, first):
    """So many abbreviations, each doubling the one before, and a note that opens the last."""
    lines = [f"@string{{s{place + 1} = s{place} # s{place}}}" for place in range(count)]
    return f"@string{{s0 = {first}}}\n" + "\n".join(lines) + f"\n@misc{{k, note = s{count}}}\n"


def long_names(count):
    """So many notes that open a definition of two long names."""
    name = "n" * 100_000
    notes = "\n".join(f"@misc{{k{place}, note = q}}" for place in range(count))
    return f"@string{{{name} = {{x}}, q = {name} # {name}}}\n{notes}\n"


def address(count):
    """An address of so many pieces."""
    return "@string{s = {x}}\n@misc{k, url = " + " # ".join(["s"] * count) + "}\n"


def references(count):
    """So many entries, each referring to the next; the last one has a date."""
    lines = [f"@misc{{k{place}, crossref = {{k{place + 1}}}}}" for place in range(count - 1)]
    return "\n".join(lines) + f"\n@misc{{k{count - 1}, date = {{2000}}}}\n"


def circle(count):
    """So many entries, each referring to the next, and the last one to the first."""
    return "\n".join(f"@misc{{k{place}, crossref = {{k{(place + 1) % count}}}}}" for place in range(count)) + "\n"


def books(count, last):
    """So many books, each referring to the next, and the last one with this field."""
    lines = [f"@book{{k{place}, crossref = {{k{place + 1}}}}}" for place in range(count - 1)]
    return "\n".join(lines) + f"\n@book{{k{count - 1}, {last}}}\n"


def run(words, out):
    """The status, the seconds and the peak memory in bytes of one run, whose output goes to a file. GNU time starts it, since what is started
    from here begins with the memory of Python."""
    started = time.perf_counter()
    limit = lambda: resource.setrlimit(resource.RLIMIT_STACK, (STACK, STACK))
    ran = subprocess.run(["/usr/bin/time", "-f", "%M", *words], stdout=out, stderr=subprocess.PIPE, preexec_fn=limit)
    return ran.returncode, time.perf_counter() - started, int(ran.stderr.split()[-1]) * 1024


def count_lines(path, wanted):
    """How often a file has a line."""
    with open(path, "rb") as lines:
        return sum(line == wanted for line in lines)


def main():
    program = built("bib_show_program")
    rows = [
        ("groups in one another", groups(1_000_000), 0),
        ("opening braces", braces(10_000_000), 1),
        ("abbreviations in a chain", abbreviations(100_000), 0),
        ("a chain, opened often", names(100_000), 0),
        ("doubled empty texts", doubled(100_000, "{}"), 0),
        ("doubled groups of nothing", doubled(100_000, "{{}}"), 0),
        ("doubled passed commands", doubled(100_000, "{\\relax}"), 0),
        ("long names, opened often", long_names(40_000), 0),
        ("an address of pieces", address(200_000), 0),
        ("references in a chain", references(100_000), 0),
        ("references in a circle", circle(100_000), 1),
        ("1,000,000 books in a chain", books(1_000_000, "publisher={P}"), 0),
        ("1,000,000 books in a circle", books(1_000_000, "crossref={k0}"), 1),
    ]
    fails, found = 0, []
    print(f"{'text':<27} {'bytes':>10} {'status':>6} {'awaited':>7} {'seconds':>8} {'memory':>13}")
    with tempfile.TemporaryDirectory() as folder:
        path, shown = os.path.join(folder, "b.bib"), os.path.join(folder, "shown")
        for name, text, awaited in rows:
            with open(path, "w") as out:
                out.write(text)
            with open(shown, "wb") as out:
                status, seconds, memory = run([program, path], out)
            is_lacking = "publisher" in text and count_lines(shown, PUBLISHER) != text.count("@")
            fails += status != awaited or is_lacking
            found.append({"text": name, "bytes": len(text), "status": status, "seconds": round(seconds, 2), "memory": memory})
            print(f"{name:<27} {len(text):>10} {status:>6} {awaited:>7} {seconds:>8.3f} {memory:>13}", flush=True)
    if fails:
        sys.exit(1)
    results.record("deep", {"rows": found})


main()
