"""By which words one looks up a rule: each heading and each code word of the pages that have the rules.

A code word stands in the running text of a page, in backquotes: a word in capitals, an option as --port or another single
word, with what follows it or without. Words of one letter, numbers, signs, whole sentences and the words of EXAMPLES are
none. Indented lines are examples, and aren't read.
"""
import pathlib
import re

DOCS = pathlib.Path(__file__).resolve().parents[2] / "docs"
PAGES = tuple(DOCS / f"{name}.md" for name in ("MAPFILE", "FILES", "WMS", "DRAWING", "SERVICE"))
# Names and values of maps by which the pages show a rule.
EXAMPLES = {"Roads", "Ulm", "ab", "pop", "roads"}
FIRST = re.compile(r"(--[a-z][a-z-]+|[A-Z][A-Z_0-9]+)(?![\w.:-])")
ALONE = re.compile(r"[A-Za-z][\w-]+")


def code_word(text):
    """The code word of a backquoted text, or None."""
    found = FIRST.match(text) or ALONE.fullmatch(text)
    return found[0] if found and found[0] not in EXAMPLES else None


def code_words(page):
    """The code words of a page's text, each once, in order."""
    lines = (line for line in page.splitlines() if not line.startswith("    "))
    words = (code_word(text) for line in lines for text in re.findall(r"`([^`]+)`", line))
    return list(dict.fromkeys(filter(None, words)))


def headings(page):
    """The headings of a page below its title."""
    return re.findall(r"^##+ (.*)$", page, re.M)


def looked_for(rows):
    """What stands in that column of some rows."""
    return "\n".join(row["look for"] for row in rows).replace("`", "")


def stands(word, cells, flags=0):
    """Whether a word stands in the cells, whole."""
    return re.search(rf"(?<![\w-]){re.escape(word)}(?![\w-])", cells, flags) is not None


def of_heading(table, path, heading):
    """The rows of a heading, and all rows where it has none."""
    return [row for row in table if row["page"] == f"{path.stem}: {heading}"] or table


def check(table):
    """Each word by which one may look, with its page, and whether a row has it in the column for that: a heading, in capitals or not, one of its own rows."""
    cells = looked_for(table)
    for path in PAGES:
        page = path.read_text(encoding="utf-8")
        for heading in headings(page):
            is_there = stands(heading, looked_for(of_heading(table, path, heading)), re.I)
            yield f"docs/{path.name}: the heading {heading} in a Look for of tools/rules.csv", is_there
        for word in code_words(page):
            yield f"docs/{path.name}: the code word {word} in a Look for of tools/rules.csv", stands(word, cells)
