"""What the entries of a BibLaTeX file answer in `cite_csl`, as CSL JSON, for checks/published_styles.

A style of its own has `cite_csl` print each variable of each entry, so that pandoc can be given the same data. Texts are printed in small
letters and in capitals too: a letter that stays in either of them stands in braces in the file, and no case of a style changes it.
"""
import html
import itertools
import json
import os
import re
import subprocess

KINDS = """article article-journal article-magazine article-newspaper bill book broadcast chapter classic collection dataset document entry
    entry-dictionary entry-encyclopedia event figure graphic hearing interview legal_case legislation manuscript map motion_picture
    musical_score pamphlet paper-conference patent performance periodical personal_communication post post-weblog regulation report review
    review-book software song speech standard thesis treaty webpage""".split()
TEXTS = """abstract annote archive archive_collection archive_location archive-place authority call-number collection-title container-title
    container-title-short dimensions division event-title event-place genre jurisdiction keyword medium note original-publisher
    original-publisher-place original-title part-title publisher publisher-place references reviewed-genre reviewed-title scale section source
    status title title-short volume-title chapter-number collection-number edition issue number number-of-pages number-of-volumes page
    part-number printing-number supplement-number version volume""".split()
ADDRESSES = "DOI ISBN ISSN PMCID PMID URL".split()
DATES = "accessed available-date event-date issued original-date submitted".split()
PEOPLE = """author chair collection-editor compiler composer container-author contributor curator director editor editorial-director
    editor-translator executive-producer guest host illustrator interviewer narrator organizer original-author performer producer recipient
    reviewed-author script-writer series-creator translator""".split()
LANGUAGES = {"english": "en-US", "french": "fr-FR", "german": "de-DE"}
KEY = re.compile(r"^@(?!string)\w+\{(\w+),", re.M)
LANGUAGE = re.compile(r"^@\w+\{(\w+),[^@]*\blangid = \{(\w+)\}", re.M)
FIELD, PERSON, PART, CITE = "␟", "¦", "¤", "␞"


def letters(text):
    """The letters of a text: quotes, spaces and case may be printed otherwise in another language."""
    return re.sub(r"\W", "", text).lower()


def run(*words):
    """What a program writes; an error where its status is not 0."""
    return subprocess.run(words, capture_output=True, check=True, timeout=600).stdout.decode()


def wrote(folder, name, text):
    """The path of a new file in a folder."""
    path = os.path.join(folder, name)
    with open(path, "w", encoding="utf-8") as file:
        file.write(text)
    return path


def answer(name, node):
    """A node that prints a name and what another node prints, where that prints anything."""
    return f'<group><text value="{FIELD}{name}="/>{node}</group>'


def style(particles):
    """The style that prints all answers. Particles of names stand before the family names, or else behind the given names."""
    nodes = [f'<choose><if type="{kind}"><text value="{FIELD}type={kind}"/></if></choose>' for kind in KINDS]
    nodes += [answer(name, f'<text variable="{name}"/>') for name in TEXTS + ADDRESSES]
    nodes += [answer(f"{name}|{case}", f'<text variable="{name}" text-case="{case}"/>') for name in TEXTS for case in ("lowercase", "uppercase")]
    nodes += [answer(f"{name}|{part}", f'<date variable="{name}"><date-part name="{part}"{form}/></date>')
              for name in DATES for part, form in (("year", ""), ("month", ' form="numeric"'), ("day", ""))]
    nodes += [f'<choose><if is-uncertain-date="{name}"><text value="{FIELD}{name}|circa=1"/></if></choose>' for name in DATES]
    inverted = f'name-as-sort-order="all" sort-separator="{PART}" delimiter="{PERSON}" delimiter-precedes-last="always"'
    nodes += [answer(name, f'<names variable="{name}"><name {inverted}/></names>') for name in PEOPLE]
    where = "never" if particles else "display-and-sort"
    return (f'<style xmlns="http://purl.org/net/xbiblio/csl" class="in-text" version="1.0" demote-non-dropping-particle="{where}"><info/>'
            f'<citation><layout>{"".join(nodes)}</layout></citation></style>')


def printed(program, bib, keys, folder, particles):
    """The answers of these entries by their names, as `cite_csl` prints them."""
    document = wrote(folder, "answers.txt", "".join(f"[@{key}]{CITE}" for key in keys))
    cites = run(program, "--style", wrote(folder, "answers.csl", style(particles)), "--bib", bib, document).split(CITE)[:-1]
    return [dict(part.split("=", 1) for part in cite.split(FIELD)[1:]) for cite in cites]


def marked(text, lower, upper):
    """A text with markup around the letters that no case changes."""
    if not len(text) == len(lower) == len(upper):
        return text
    runs = itertools.groupby(zip(text, lower, upper), lambda at: at[0].lower() != at[0] == at[1] or at[0].upper() != at[0] == at[2])
    texts = ((stays, html.escape("".join(at[0] for at in run), quote=False)) for stays, run in runs)
    return "".join(f'<span class="nocase">{run}</span>' if stays else run for stays, run in texts)


def people(names, demoted):
    """People, as they are printed with particles before the family names and behind the given names. Of a name without a particle that is said,
    since pandoc looks for one in the family name of another one."""
    for name, other in zip(names.split(PERSON), demoted.split(PERSON)):
        parts, family = dict(zip(("family", "given", "suffix"), name.split(PART))), other.split(PART)[0]
        yield {**parts, "family": family, "non-dropping-particle": parts["family"].removesuffix(family).strip()}


def date(name, answers):
    """A date, or a range of dates. What both of its sides share may be printed once."""
    parts = [answers[f"{name}|{part}"].split("–") for part in ("year", "month", "day") if answers.get(f"{name}|{part}")]
    sides = [[int(part[min(side, len(part) - 1)]) for part in parts] for side in range(max(map(len, parts)))]
    return {"date-parts": sides, **({"circa": True} if f"{name}|circa" in answers else {})}


def entry(key, answers, demoted, language):
    """An entry in CSL JSON, of what it answers with its particles before the family names and behind the given names."""
    made = {"id": key, "type": answers.get("type", ""), **{name: answers[name] for name in ADDRESSES if name in answers}}
    made.update({name: marked(*(answers[name + case] for case in ("", "|lowercase", "|uppercase"))) for name in TEXTS if name in answers})
    made.update({name: date(name, answers) for name in DATES if f"{name}|year" in answers})
    made.update({name: list(people(answers[name], demoted[name])) for name in PEOPLE if name in answers})
    made.update({"event": made["event-title"]} if "event-title" in made else {})
    return {**made, "language": LANGUAGES[language]} if language else made


def written(program, bib, folder):
    """Writes the answers of all entries of a file into a folder, as CSL JSON; returns its path, and the keys by the titles."""
    with open(bib, encoding="utf-8") as file:
        text = file.read()
    keys, languages = KEY.findall(text), dict(LANGUAGE.findall(text))
    answers = list(zip(keys, *(printed(program, bib, keys, folder, particles) for particles in (True, False)), strict=True))
    data = json.dumps([entry(*given, languages.get(given[0])) for given in answers], ensure_ascii=False)
    return wrote(folder, "answers.json", data), {letters(given["title"]): key for key, given, _ in answers}
