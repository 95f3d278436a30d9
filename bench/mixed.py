"""Mixed entries from a fixed seed, about 300 bytes each: of each four two articles in journals that have abbreviations, a book, and a
chapter that refers to it by `crossref`; with accents, groups, verbatim addresses and math."""
from measuring import WORDS, title

JOURNALS = 40
ACCENTED = [r'M{\"u}ller', r"Nov\'{a}k", r"S{\o}rensen", r"{\v C}apek", r"Garc{\'\i}a", "Roe"]


def people(chance):
    """Two names with accents."""
    return " and ".join(chance.choice(ACCENTED) + ", " + chance.choice(WORDS).title() + " " + chance.choice("ABCDEFGH") + "." for _ in range(2))


def article(chance, key, authors=None, year=None):
    """An article in one of the journals, by authors and of a year that are drawn where none are said."""
    return f"""@article{{{key},
  author = {{{authors or people(chance)}}},
  title = {{{title(chance)} in the {{US}} -- a {{\\em short}} survey}},
  journaltitle = journal{chance.randrange(JOURNALS)} # {{ (new series)}},
  date = {{{year or chance.randint(1900, 2025)}-{chance.randint(1, 12):02}}}, volume = {chance.randint(1, 99)},
  pages = {{{chance.randint(1, 99)}--{chance.randint(100, 400)}}},
  doi = {{10.1000/{key}_{chance.randrange(10**6)}}},
}}
"""


def book(chance, key):
    """A book."""
    return f"""@book{{{key},
  author = {{{people(chance)}}},
  title = {{{title(chance)}}},
  subtitle = "{title(chance)} of {{Life \\& Letters}}",
  publisher = {{{chance.choice(WORDS).title()} \\& {chance.choice(WORDS).title()} Press}},
  location = {{New York}},
  date = {{{chance.randint(1900, 2025)}}},
  url = {{https://example.org/books/{key}?a=1&b=%20}},
}}
"""


def chapter(chance, key, whole):
    """A chapter of a book."""
    return f"""@inbook{{{key}, crossref = {{{whole}}},
  author = {{{people(chance)}}},
  title = {{{title(chance)} and ${chance.choice("abcxyz")}^2$}},
  pages = {{{chance.randint(1, 99)}--{chance.randint(100, 400)}}},
  note = {{{title(chance)}, {title(chance)}}},
  addendum = {{{title(chance)}}},
}}
"""


def entries(chance, count):
    """So many entries, in groups of four."""
    for place in range(0, count, 4):
        yield article(chance, f"a{place}")
        yield book(chance, f"b{place}")
        yield article(chance, f"c{place}")
        yield chapter(chance, f"d{place}", f"b{place}")


def write(path, chance, count):
    """Writes a bib file of so many entries."""
    with open(path, "w") as out:
        for place in range(JOURNALS):
            out.write(f"@string{{journal{place} = {{Journal of {title(chance)}}}}}\n")
        out.writelines(entries(chance, count))


def draw_key(chance, count):
    """The key of one of so many entries."""
    return f"{chance.choice('abcd')}{4 * chance.randrange(count // 4)}"


def draw_keys(chance, count):
    """As many keys as there are entries."""
    for _ in range(count):
        yield draw_key(chance, count)
