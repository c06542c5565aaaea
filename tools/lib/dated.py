"""The date of the rules, which the program prints with its version, against the pages that have the rules.

tools/rules.date has the day on which one of the five pages changed last, and their sum as they were then. A clone without a
history has these, too. The sum leaves out the dates after `rules of`, so that a page may print the version itself.
"""
import datetime
import hashlib
import re

from lookups import DOCS, PAGES

KEPT = DOCS.parent / "tools" / "rules.date"
# What prints the version, or shows it.
PRINTED = [DOCS.parent / "crates" / "commandline" / "src" / "version.rt", DOCS / "SERVICE.md"]
DATED = re.compile(r"rules of (\d{4}-\d\d-\d\d)")


def sum_of(pages):
    """The sum of the pages, whatever date of the rules they print."""
    whole = hashlib.sha256()
    for path in pages:
        text = DATED.sub("rules of", path.read_text(encoding="utf-8"))
        whole.update(f"{path.name} {hashlib.sha256(text.encode()).hexdigest()}\n".encode())
    return whole.hexdigest()[:16]


def kept():
    """The day and the sum of tools/rules.date."""
    day, _, sum_then = KEPT.read_text(encoding="utf-8").strip().partition(" ")
    return day, sum_then


def write(today=None):
    """Keeps the day on which pages changed, where they did since the one that is kept."""
    if not KEPT.exists() or kept()[1] != sum_of(PAGES):
        KEPT.write_text(f"{today or datetime.date.today()} {sum_of(PAGES)}\n", encoding="utf-8")


def check():
    """Whether the pages are those of the day that is kept, and each place of PRINTED has that day."""
    day, sum_then = kept()
    yield "tools/rules.date: the sum of the pages of rules (tools/documents.py --write keeps today with it)", sum_then == sum_of(PAGES)
    for path in PRINTED:
        days = DATED.findall(path.read_text(encoding="utf-8"))
        yield f"{path.relative_to(DOCS.parent)}: `rules of {day}`, the day on which a page of rules changed last,", days == [day]
