#!/usr/bin/env python3
"""Reads files of CSL that are large in one way each, with a stack of 8 MB.

    bench/csl.py

A style with many nodes, with a long value, with many macros, with as many calls of them, with many comments, or with many terms that no list
has; a locale of as many; a style with many attributes that it may not have; macros of which each calls the next; and groups in one another. Each
is a case of the kind `csl_file`, which the built `case_runner` reads, in two sizes. For each size it prints the bytes of the text, the answer, the
seconds and the peak memory of the run. It ends with status 1 where an answer is another one than is awaited.
"""
import json
import os
import resource
import subprocess
import sys
import tempfile
import time

import results
from measuring import built

STACK = 8 << 20
SPACE = 'xmlns="http://purl.org/net/xbiblio/csl" version="1.0"'


def style(nodes, before=""):
    """A style whose citation has these nodes."""
    return f'<style {SPACE} class="in-text"><info/>{before}<citation><layout>{nodes}</layout></citation></style>'


def macros(count):
    """So many macros."""
    return "".join(f'<macro name="m{number}"><text value="x"/></macro>' for number in range(count))


def chain(count):
    """So many macros, each of which calls the next."""
    return "".join(f'<macro name="m{number}"><text macro="m{number + 1}"/></macro>' for number in range(count)) + f'<macro name="m{count}"/>'


def each(form, count):
    """A form for each number below that."""
    return "".join(form % number for number in range(count))


TEXTS = [
    ("nodes", lambda n: style('<text variable="title"/>' * (4 * n)), "style"),
    ("a long value", lambda n: style('<text value="' + "x" * (100 * n) + '"/>'), "style"),
    ("macros", lambda n: style("", macros(n)), "style"),
    ("macros, each called", lambda n: style(each('<text macro="m%d"/>', n), macros(n)), "style"),
    ("comments", lambda n: style("", "<!---->" * (10 * n)), "style"),
    ("terms that no list has", lambda n: style(each('<text term="w%d"/>', n)), "style"),
    ("a locale of such terms", lambda n: f"<locale {SPACE}><terms>" + each('<term name="w%d">x</term>', n) + "</terms></locale>", "locale"),
    ("attributes that may not be", lambda n: f"<style {SPACE} " + each('a%d="x" ', n) + "/>", "Schema"),
    ("macros in a chain", lambda n: style("", chain(n)), "TooDeep"),
    ("groups in one another", lambda n: style("<group>" * n + "</group>" * n), "Text"),
]


def run(program, case):
    """What a program answers to a case, the seconds and the peak memory in bytes. GNU time starts it, since what is started from here begins
    with the memory of Python."""
    with tempfile.TemporaryFile() as given:
        given.write((json.dumps(case) + "\n").encode())
        given.seek(0)
        started = time.perf_counter()
        limit = lambda: resource.setrlimit(resource.RLIMIT_STACK, (STACK, STACK))
        ran = subprocess.run(["/usr/bin/time", "-f", "%M", program], stdin=given, capture_output=True, preexec_fn=limit)
    if ran.returncode != 0:
        return f"status {ran.returncode}", time.perf_counter() - started, 0
    answer = json.loads(ran.stdout)
    return answer.get("means") or answer.get("refused"), time.perf_counter() - started, int(ran.stderr.split()[-1]) * 1024


def main():
    program = built("case_runner")
    fails, found = 0, []
    print(f"{'text':<27} {'bytes':>10} {'answer':>8} {'seconds':>8} {'memory':>13}")
    for name, text_of, awaited in TEXTS:
        for size in (10_000, 100_000):
            text = text_of(size)
            answer, seconds, memory = run(program, {"case": "csl_file", "text": text})
            fails += answer != awaited
            found.append({"text": name, "bytes": len(text), "answer": answer, "seconds": round(seconds, 2), "memory": memory})
            print(f"{name:<27} {len(text):>10} {answer:>8} {seconds:>8.3f} {memory:>13}", flush=True)
    if fails:
        sys.exit(1)
    results.record("csl", {"rows": found})


main()
