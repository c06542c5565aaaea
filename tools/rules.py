#!/usr/bin/env python3
"""Prints the rows of the table of rules that have some words, with the places of what they name.

Usage: rules.py --row WORD..

A row of rules.csv is printed where each WORD stands in its subject, in what one looks for, in the rule, in a definition, in a
clause or in a call, in capitals or not. Below the rule stand the heading that has it, each definition and each call with
file and line, what runs beside these in the program, and the mutants of planted.csv that change a function of the row. It
ends with 1 where there is no such row.
"""
import argparse
import pathlib
import re
import sys

sys.path.insert(0, str(pathlib.Path(__file__).resolve().parent / "lib"))

import mutants
import rules
from crates import CRATES, TOP

SEARCHED = ("subject", "look for", "rule or promise", "definition", "kept by", "code")


def place_of(path, before, name):
    """The path, with the first line that has the name behind what stands before it in a declaration."""
    declared = re.compile(rf"{before}\b{name}\b")
    lines = path.read_text().splitlines() if name else []
    number = next((number for number, line in enumerate(lines, 1) if declared.search(line)), None)
    return f"{path.relative_to(TOP)}:{number}  {name}" if number else str(path.relative_to(TOP))


def definition_at(words):
    """The places of the definitions that an entry names, as `CRATE/specs/MODULE NAMES`."""
    crate, _, module = words[0].partition("/specs/")
    path = TOP / "crates" / crate / "specs" / f"{module}.antt"
    yield from (place_of(path, "pub .*", name) for name in words[1:] or [""])


def call_at(words):
    """The place of a call, as `CRATE::CALL CLAUSES`, with its clauses."""
    crate, _, name = words[0].partition("::")
    owner, _, call = name.rpartition("::")
    for path in sorted((TOP / "crates" / crate / "src").rglob("*.rt")):
        text = path.read_text()
        if re.search(rf"\bfn {call}\b", text) and (not owner[:1].isupper() or owner in text) and (owner != "laws" or path.stem == "laws"):
            return " ".join([place_of(path, r"\bfn ", call), *words[1:]])
    return " ".join(words)


def mutants_of(row):
    """The mutants of planted.csv that change a function of the row."""
    named = [words for column in ("kept by", "code") for words in rules.named_in(row, column)]
    functions, crates = {word.rpartition("::")[2] for words in named for word in words}, rules.crates_of(named)
    for mutant in mutants.rows():
        if mutant["crate"] in crates and mutant["function"].rpartition("::")[2] in functions:
            yield f"{mutant['crate']} {mutant['function']}: {mutant['wrong behaviour']} ({mutant['refused by']})"


def shown(row):
    """The lines of a row."""
    yield f"{row['subject']}: {row['rule or promise']}"
    yield f"  {row['page']}"
    for words in rules.named_in(row, "definition"):
        yield from (f"  defined  {place}" for place in definition_at(words))
    for words in rules.named_in(row, "kept by"):
        yield f"  kept by  {call_at(words)}"
    yield from (f"  runs     {words[0]}.rt {' '.join(words[1:])}".rstrip() for words in rules.named_in(row, "code"))
    yield from (f"  mutant   {mutant}" for mutant in mutants_of(row))


def main():
    parser = argparse.ArgumentParser(prog="rules.py", description=__doc__.split("\n\n", maxsplit=1)[0])
    parser.add_argument("--row", nargs="+", required=True, metavar="WORD", help="words that the row has")
    wanted = [word.lower() for word in parser.parse_args().row]
    found = [row for row in rules.rows() if all(word in " ".join(row[name] for name in SEARCHED).lower() for word in wanted)]
    print("\n\n".join("\n".join(shown(row)) for row in found) or "no row has these words")
    sys.exit(not found)


if __name__ == "__main__":
    main()
