#!/usr/bin/env python3
"""Counts the clauses of contracts that are too long to be read. Usage: clauses.py [--names]

A clause is what stands between the braces behind `requires` or `ensures` in a crate's src. Its length is that of its text
with each run of blanks as one, its lines are those that it stands on. Crates of tests aren't read.

It prints how many clauses there are and how many are above the limits, with --names which. It ends with 1 where one is.
"""
import pathlib
import re
import sys

TOP = pathlib.Path(__file__).resolve().parent.parent
MOST_CHARACTERS, MOST_LINES = 250, 5
BEGIN = re.compile(r"^\s*(?:requires|ensures)\b[^{\n]*\{", re.M)


def clauses_of(text):
    """The clauses of a file, each with the number of its first line."""
    for found in BEGIN.finditer(text):
        at, depth = found.end(), 1
        while depth and at < len(text):
            depth += {"{": 1, "}": -1}.get(text[at], 0)
            at += 1
        yield text.count("\n", 0, found.end()) + 1, text[found.end() : at - 1]


def is_long(clause):
    """Whether a clause is above a limit."""
    return len(" ".join(clause.split())) > MOST_CHARACTERS or clause.strip().count("\n") >= MOST_LINES


def sources():
    """The files of the crates that aren't tests."""
    for path in sorted((TOP / "crates").glob("*/src/**/*.rt")):
        crate = path.relative_to(TOP).parts[1]
        if not crate.startswith("test_") and not crate.endswith("_tests"):
            yield path


def long_ones():
    """How many clauses there are, and the places of those above a limit."""
    count, found = 0, []
    for path in sources():
        clauses = list(clauses_of(path.read_text(encoding="utf-8")))
        count += len(clauses)
        found += [f"{path.relative_to(TOP)}:{line}" for line, clause in clauses if is_long(clause)]
    return count, found


def main():
    count, found = long_ones()
    print(f"{count} clauses, {len(found)} of more than {MOST_CHARACTERS} characters or {MOST_LINES} lines")
    if "--names" in sys.argv[1:]:
        print("\n".join(found))
    sys.exit(bool(found))


if __name__ == "__main__":
    main()
