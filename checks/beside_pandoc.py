"""What `cite_csl` and pandoc print of one document in published styles, for checks/published_styles."""
import concurrent.futures
import glob
import html
import json
import os
import re
import subprocess
import tempfile
import xml.etree.ElementTree as ElementTree

import answered

HERE = os.path.dirname(os.path.realpath(__file__))
BIB, DOCUMENT = (os.path.join(HERE, "published_styles" + end) for end in (".bib", ".txt"))
SPACE = "{http://purl.org/net/xbiblio/csl}"
CITED = re.compile(r"@(\w+)(?: (\w+) ([^;\]]+))?")
LOOKS = {"Emph", "Strong", "SmallCaps", "Superscript", "Subscript", "Strikeout", "Underline", "Para", "Plain", "Note"}
BLOCKS = {"csl-block", "csl-indent"}
DATA = ("with our answers", "with the file")
FORTY = """apa chicago-author-date chicago-fullnote-bibliography chicago-note-bibliography modern-language-association ieee nature science cell
    pnas plos bmj the-lancet vancouver vancouver-superscript american-medical-association american-chemical-society american-physics-society
    american-sociological-association american-geophysical-union association-for-computing-machinery acm-sig-proceedings elsevier-harvard
    elsevier-with-titles elsevier-vancouver springer-basic-author-date springer-basic-brackets springer-vancouver-brackets
    springer-mathphys-brackets springer-lecture-notes-in-computer-science multidisciplinary-digital-publishing-institute
    taylor-and-francis-chicago-author-date royal-society-of-chemistry harvard-cite-them-right turabian-fullnote-bibliography
    modern-humanities-research-association iso690-author-date-en china-national-standard-gb-t-7714-2015-numeric din-1505-2
    associacao-brasileira-de-normas-tecnicas""".split()


class Style:
    """A published style, with the locale files for its language, which come before that for American English."""

    def __init__(self, folder, path):
        self.path, self.name, self.root = path, os.path.basename(path).removesuffix(".csl"), ElementTree.parse(path).getroot()
        language = self.root.get("default-locale", "en-US")
        found = glob.glob(os.path.join(folder, "locales", f"locales-{language.split('-')[0]}*.xml"))
        american = os.path.join(folder, "locales", "locales-en-US.xml")
        self.locales = sorted({*found, american}, key=lambda path: (f"-{language}.xml" not in path, path == american, path))

    def labels(self):
        """The words by which pandoc reads the labels of locators in the language of the style."""
        words = {}
        for term in (term for path in self.locales for term in ElementTree.parse(path).iter(SPACE + "term")):
            if term.get("form", "long") == "long" and (word := (term.findtext(SPACE + "single") or term.text or "").strip()):
                words.setdefault(term.get("name"), word)
        return words

    def with_titles(self):
        """The style with items that are titles alone, in the order that it has."""
        root = ElementTree.fromstring(ElementTree.tostring(self.root))
        for bibliography in root.iter(SPACE + "bibliography"):
            bibliography.remove(bibliography.find(SPACE + "layout"))
            ElementTree.SubElement(ElementTree.SubElement(bibliography, SPACE + "layout"), SPACE + "text", variable="title")
        return ElementTree.tostring(root, encoding="unicode")


class Outputs:
    """What a program prints in a style: the citations, and the items of the bibliography by their keys, in its order."""

    def __init__(self, citations, items):
        self.citations, self.items = [tidy(text) for text in citations], {key: tidy(text) for key, text in items.items()}

    def beside(self, other):
        """Each output with its name, here and there."""
        for number, pair in enumerate(zip(self.citations, other.citations, strict=True), 1):
            yield f"citation {number}", *pair
        yield from ((key, self.items.get(key, ""), other.items.get(key, "")) for key in {**self.items, **other.items})
        if self.items or other.items:
            yield "order", " ".join(self.items), " ".join(other.items)


def tidy(text):
    """A text in one line, with one space where lines meet."""
    return re.sub(r" *\n[ \n]*", " ", text.strip("\n"))


def shown(part):
    """The text of a part of pandoc's document, without its looks."""
    if isinstance(part, list):
        return "".join(map(shown, part))
    kind, inside = part["t"], part.get("c")
    if kind == "Str":
        return inside
    if kind in ("Space", "SoftBreak", "LineBreak"):
        return " "
    if kind in ("Cite", "Link", "Span", "Div"):
        line = "\n" if kind in ("Span", "Div") and BLOCKS & set(inside[0][1]) else ""
        return line + shown(inside[1]) + line
    if kind in LOOKS:
        return shown(inside)
    raise ValueError(f"pandoc: {kind}")


def written(part):
    """The same as pandoc writes it: spaces at its end are left out."""
    return shown(part).rstrip(" \n")


class Runs:
    """Runs of both programs on the document, with files in a folder of their own."""

    def __init__(self, program, folder):
        self.program, self.folder = program, folder
        with open(DOCUMENT, encoding="utf-8") as file:
            self.markers = file.read().splitlines()
        self.answers, self.keys = answered.written(program, BIB, folder)

    def printed(self, style, path):
        """The citations and the items of `cite_csl` in the style at a path, as HTML without its tags."""
        document = answered.wrote(self.folder, f"{style.name}.txt", "".join(marker + answered.CITE for marker in self.markers))
        locales = [word for locale in style.locales for word in ("--locale", locale)]
        page = answered.run(self.program, "--style", path, *locales, "--to", "html", "--bib", BIB, document)
        *citations, bibliography = re.sub(r"</?div[^>]*>", "\n", page).split(answered.CITE)
        items = re.findall(r"<p>(.*?)</p>", bibliography, re.S)
        return [[html.unescape(re.sub(r"<[^>]*>", "", text)) for text in texts] for texts in (citations, items)]

    def ours(self, style):
        """What `cite_csl` prints. Another run prints the titles of the items, which say whose they are."""
        citations, items = self.printed(style, style.path)
        titles = self.printed(style, answered.wrote(self.folder, f"{style.name}.csl", style.with_titles()))[1]
        return Outputs(citations, dict(zip((self.keys[answered.letters(title)] for title in titles), items, strict=True)))

    def theirs(self, style, data):
        """What pandoc prints with these data."""
        labels = style.labels()
        cites = [CITED.sub(lambda cite: f"@{cite[1]}" + (f", {labels[cite[2]]} {cite[3]}" if cite[2] else ""), marker)
                 for marker in self.markers]
        document = answered.wrote(self.folder, f"{style.name}.md", "\n\n".join(cites))
        page = answered.run("pandoc", document, "--citeproc", "--csl", style.path, "--bibliography", data, "-t", "json")
        blocks = json.loads(page)["blocks"]
        items = [item for block in blocks if block["t"] == "Div" for item in block["c"][1]]
        citations = [written(block) for block in blocks if block["t"] == "Para"]
        return Outputs(citations, {item["c"][0][0].removeprefix("ref-"): written(item) for item in items})

    def compared(self, style):
        """All outputs, with pandoc's from our answers and from the file; none where a program refuses the style."""
        try:
            ours = self.ours(style)
            return [list(ours.beside(self.theirs(style, data))) for data in (self.answers, BIB)]
        except subprocess.SubprocessError as error:
            print(f"{style.name}: {(error.stderr or b'').decode().strip() or error}")
            return []


def paths(folder, every, show):
    """The paths of one style, of every so many of all, or of the forty."""
    if every:
        return sorted(glob.glob(os.path.join(folder, "styles", "*.csl")))[::every]
    return [os.path.join(folder, "styles", f"{name}.csl") for name in ([show] if show else FORTY)]


def compare(program, folder, every, show, jobs):
    """Compares all outputs in these styles and prints the counts; returns whether every style was compared."""
    counts, styles = [], [Style(folder, path) for path in paths(folder, every, show)]
    with tempfile.TemporaryDirectory() as made, concurrent.futures.ThreadPoolExecutor(jobs) as pool:
        for style, found in zip(styles, pool.map(Runs(program, made).compared, styles)):
            if found:
                counts.append([(len(outputs), sum(here == there for _, here, there in outputs)) for outputs in found])
                both = ", ".join(f"{equal} {data}" for (_, equal), data in zip(counts[-1], DATA))
                print(f"{style.name}: of {counts[-1][0][0]} outputs are equal {both}", flush=True)
            for data, outputs in zip(DATA, found if found and show else ()):
                for name, here, there in (output for output in outputs if output[1] != output[2]):
                    print(f"{data}, {name}:\n    {here}\n    {there}")
    for data, column in zip(DATA, zip(*counts)):
        number, equal, whole = sum(number for number, _ in column), sum(equal for _, equal in column), sum(a == b for a, b in column)
        print(f"{data}: of {number} outputs {equal} are equal ({100 * equal / number:.1f} %); of {len(column)} styles {whole} wholly")
    return len(counts) == len(styles)
