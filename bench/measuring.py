"""What the measuring scripts share: words, documents, and runs of a program that are timed, weighed and counted."""
import math
import os
import random
import subprocess
import sys
import tempfile
import time

import results

SIZES = (1_000, 10_000, 100_000)
WORDS = "of the art light field winter river letters house memory early stone public measure sea on time form".split()


def title(chance):
    """A title of 40 to 60 characters."""
    wanted = chance.randint(40, 60)
    text = "A"
    while len(text) < wanted:
        text += " " + chance.choice(WORDS)
    return text[:wanted].rstrip().ljust(40, "s")


def document(chance, keys):
    """A text with a marker for each key, in lines of 60 bytes."""
    lines = []
    for key in keys:
        marker = "[@" + key + "]"
        text = ""
        while len(text) + len(marker) < 59:
            text += chance.choice(WORDS) + " "
        lines.append(text[:59 - len(marker)] + marker + "\n")
    return "".join(lines)


def peak_and_seconds(words, path=os.devnull):
    """The peak memory in bytes and the seconds of one run, whose output goes to a file. GNU time starts it, since what is started from here
    begins with the memory of Python."""
    started = time.perf_counter()
    with open(path, "wb") as out:
        ran = subprocess.run(["/usr/bin/time", "-f", "%M", *words], stdin=subprocess.DEVNULL, stdout=out, stderr=subprocess.PIPE, text=True)
    seconds = time.perf_counter() - started
    if ran.returncode != 0:
        sys.exit(f"{words} ended with status {ran.returncode}: {ran.stderr}")
    return int(ran.stderr.split()[-1]) * 1024, seconds


def least_processor_seconds(words, runs):
    """The least processor time of so many runs, in seconds: that of the program and that of the system for it."""
    least = math.inf
    for _ in range(runs):
        started = subprocess.Popen(words, stdin=subprocess.DEVNULL, stdout=subprocess.DEVNULL, stderr=subprocess.DEVNULL)
        _, status, used = os.wait4(started.pid, 0)
        started.returncode = os.waitstatus_to_exitcode(status)
        if started.returncode != 0:
            sys.exit(f"{words} ended with status {started.returncode}")
        least = min(least, used.ru_utime + used.ru_stime)
    return least


def instructions(words, folder, given=None, inside=None, status=0):
    """The instructions of one run, with a file as its input; of those inside functions of a name alone, where one is said. It has to end with
    the status."""
    out = os.path.join(folder, "callgrind.out")
    options = [f"--toggle-collect=*{inside}*"] if inside else []
    command = ["valgrind", "--tool=callgrind", "--callgrind-out-file=" + out] + options + words
    ran = subprocess.run(command, stdin=given, stdout=subprocess.DEVNULL, stderr=subprocess.DEVNULL)
    if ran.returncode != status:
        sys.exit(f"{words} ended with status {ran.returncode}")
    with open(out) as lines:
        for line in lines:
            if line.startswith(("summary:", "totals:")):
                return int(line.split()[1])
    sys.exit("callgrind gave no summary")


def rate_between(small, large):
    """The instructions for each byte by which one row is larger than another."""
    return (large["instructions"] - small["instructions"]) / (large["bytes"] - small["bytes"])


def exponent(small, large, small_size, large_size):
    """The exponent by which instructions grow from one size to another."""
    return math.log(large / small) / math.log(large_size / small_size)


def growth_between(small, large):
    """The exponent by which the instructions grow with the bytes from one row to another."""
    return exponent(small["instructions"], large["instructions"], small["bytes"], large["bytes"])


class Table:
    """Measures a program at several sizes, prints a line for each, and at last the growth from each to the next."""

    def __init__(self, words, folder):
        self.words, self.folder, self.rows = words, folder, []
        self.empty, _ = peak_and_seconds(words)
        print(f"{'N':>7} {'bytes':>10} {'instructions':>14} {'seconds':>8} {'memory':>11} {'times input':>11}")

    def line(self, count, size):
        """One size: the instructions, the seconds, and the memory less that of the empty run."""
        peak, seconds = peak_and_seconds(self.words)
        ran = instructions(self.words, self.folder)
        more = peak - self.empty
        self.rows.append({"N": count, "bytes": size, "instructions": ran, "seconds": round(seconds, 2), "memory": more})
        print(f"{count:>7} {size:>10} {ran:>14} {seconds:>8.3f} {more:>11} {more / size:>11.2f}", flush=True)

    def found(self):
        """The rows with the instructions for each byte between the smaller two, and the growth exponents from each to the next, which are
        printed."""
        pairs = list(zip(self.rows, self.rows[1:]))
        rate = rate_between(*pairs[0])
        exponents = [round(growth_between(*pair), 4) for pair in pairs]
        print(f"instructions a byte: {rate:.1f}")
        print("growth exponents:", *(f"{exponent:.4f}" for exponent in exponents))
        return {"rows": self.rows, "rate": round(rate, 1), "exponents": exponents}

    def finish(self, name, wanted):
        """Writes down what was found, with the figures that are wanted."""
        results.record(name, {"script": os.path.basename(sys.argv[0]), **self.found(), "wanted": wanted})


def built(name):
    """The path of a program: the first word, or the one that is built here."""
    here = os.path.dirname(os.path.abspath(__file__))
    return os.path.abspath(sys.argv[1] if len(sys.argv) > 1 else os.path.join(here, f"../crates/{name}/out/{name}"))


class FilterRuns:
    """Runs of the filter over a bib file and a document in a folder of its own."""

    def __init__(self, folder):
        self.program, self.folder = built("cite_program"), folder
        self.bib, self.text = os.path.join(folder, "b.bib"), os.path.join(folder, "d.txt")

    def words(self, style, kind):
        """The program's words for a style and a format."""
        return [self.program, style, kind, self.bib, self.text]

    def table(self, style, kind):
        """A table whose empty run has empty files."""
        for path in (self.bib, self.text):
            open(path, "w").close()
        return Table(self.words(style, kind), self.folder)

    def write(self, count, write_bib, draw_keys, document=document):
        """Writes a bib file of so many entries, and a document that cites the keys that are drawn; gives the bytes of both."""
        chance = random.Random(count)
        write_bib(self.bib, chance, count)
        with open(self.text, "w") as out:
            out.write(document(chance, draw_keys(chance, count)))
        return os.path.getsize(self.bib) + os.path.getsize(self.text)

    def measured(self, style, kind, sizes, write_bib, draw_keys, document=document):
        """What is found at sizes."""
        table = self.table(style, kind)
        for count in sizes:
            table.line(count, self.write(count, write_bib, draw_keys, document))
        return table.found()


def measure_filter(name, wanted, write_bib, draw_keys):
    """Measures the filter by numbers in plain text over files of three sizes: `write_bib` writes so many entries to a path, and `draw_keys`
    draws the keys that a document of that size cites."""
    with tempfile.TemporaryDirectory() as folder:
        found = FilterRuns(folder).measured("numeric", "plain", SIZES, write_bib, draw_keys)
    results.record(name, {"script": os.path.basename(sys.argv[0]), **found, "wanted": wanted})
