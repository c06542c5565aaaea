#!/usr/bin/env python3
"""Checks the table of mutants that were planted, counts them, and picks some to plant again.

Usage: planted.py
       planted.py --pick N [--seed SEED] [--crate CRATE]
       planted.py --try CRATE..
       planted.py --stale

planted.csv beside this script has a row for each mutant: its crate, the function that it changes where that was noted,
the wrong behaviour, what refuses it, and the date: the day on which it was planted where that was noted, else the first
on which the list of mutants had it. A crate whose proof takes more than a processor minute has no file in must-fail: its
edit stands in the row, with the date of its last trial and the sum of the crate's sources on that day. What refuses a
mutant is one or more of these, with `; ` between them:

    edit FILE.edit          a kept edit: a file of the crate's must-fail, which each run of the gate tries, or the row's own
    clause [NAMES] [of F]   a clause of a contract, by its names and its function where these were noted
    prover                  the prover, by a clause that wasn't noted
    prover and tests        the prover, and a test too; test NAME where it was noted
    test NAME, tests NAMES  tests, and no clause
    case NAME               a case, and no clause
    law NAME                a law on the definitions; the mutant changes a definition
    script PATH             a script that tries the built program
    proof alone: ..         only the law's proof stops: the law is still true
    nothing: ..             nothing, and why that is no gap

`nothing at first, then ..` stands before what was added since.

Without arguments the script looks whether each crate, function, clause, test, law, script and edit is there, whether
each edit of must-fail has its row, and whether each text that an edit replaces stands once in its file. Where CHANGELOG.md
begins with a version that is released it also looks whether each edit of a row was tried over the sources as they are. It
prints what isn't so, then the counts by crate and by what refuses, and ends with 1 where something isn't so. With --pick
it prints N rows at random, which somebody plants again by hand and tries as "Plant one" of VERIFICATION.md says; equal
seeds pick equal rows. With --try it plants the edits of these crates' rows, each in a copy, has `rt must-fail` try them,
and notes date and sum in the rows of those that are refused. With --stale it prints the crates whose edits weren't tried
over the sources as they are.
"""
import argparse
import csv
import datetime
import pathlib
import random
import shutil
import subprocess
import sys
import tempfile

sys.path.insert(0, str(pathlib.Path(__file__).resolve().parent / "lib"))

from crates import CRATES
from mutants import COLUMNS, TABLE, TOP, check, edit_of, kind_of, rows, stale, sum_of

KINDS = ("edit", "clause", "prover", "tests", "law", "script", "nothing at first", "nothing")


def print_counts(table):
    """Prints how many mutants each crate has, by what refuses them."""
    def line(name, of):
        counts = [sum(kind_of(row) == kind for row in of) for kind in KINDS]
        print(f"{name:15}{len(of):5}" + "".join(f"{count or '':>{len(kind) + 2}}" for kind, count in zip(KINDS, counts)))

    print(f"{'crate':15}{'all':>5}" + "".join(f"{kind:>{len(kind) + 2}}" for kind in KINDS))
    for name in sorted({row["crate"] for row in table}):
        line(name, [row for row in table if row["crate"] == name])
    line("all", table)


def pick(table, count, seed):
    """Prints some rows by lot."""
    for row in random.Random(seed).sample(table, min(count, len(table))):
        function = f"{row['function']}: " if row["function"] else ""
        print(f"{row['crate']}: {function}{row['wrong behaviour']} (refused by {row['refused by']})")


def write(table):
    """Writes the table anew."""
    with TABLE.open("w", newline="") as file:
        writer = csv.DictWriter(file, COLUMNS, lineterminator="\n")
        writer.writeheader()
        writer.writerows(table)


def copy(crate, edits, folder):
    """A repository of the crates of this one, where a crate has these edits and the others have none."""
    (folder / ".git").mkdir()  # rt takes the folder for the top by it
    for name in ("crates.txt", "HANDLES"):
        shutil.copy2(TOP / name, folder)
    shutil.copytree(TOP / "crates", folder / "crates", ignore=shutil.ignore_patterns("out", "must-fail"))
    (folder / "crates" / crate / "must-fail").mkdir()
    for name, text in edits.items():
        (folder / "crates" / crate / "must-fail" / name).write_text(text)


def are_refused(crate, edits):
    """Whether rt finds that the prover refuses each of a crate's edits. It begins with what other copies kept."""
    with tempfile.TemporaryDirectory(prefix="planted-") as folder:
        copy(crate, edits, pathlib.Path(folder))
        return subprocess.run(["rt", "must-fail", crate], cwd=folder).returncode == 0


def try_all(crates):
    """Tries the edits of some crates' rows, and notes those that are refused. The result says whether all are."""
    failed = []
    for crate in crates:
        table = rows()
        own = [row for row in table if row["crate"] == crate and row["edit"]]
        tried, today = sum_of(crate), datetime.date.today().isoformat()
        if not are_refused(crate, {edit_of(row): row["edit"] for row in own}):
            failed.append(crate)
            continue
        for row in own:
            row.update(tried=today, sources=tried)
        write(table)
        print(f"{crate}: {len(own)} refused", flush=True)
    print("\n".join(f"{crate}: not all are refused" for crate in failed), end="\n" if failed else "")
    return not failed


def main():
    parser = argparse.ArgumentParser(description=__doc__.splitlines()[0])
    parser.add_argument("--pick", type=int, metavar="N", help="print N rows at random, to be planted again")
    parser.add_argument("--seed", type=int, default=1, help="which ones: equal seeds pick equal rows (1)")
    parser.add_argument("--crate", help="only of this crate")
    parser.add_argument("--try", dest="tried", nargs="+", metavar="CRATE", help="plant the edits of these crates' rows, and note those that are refused")
    parser.add_argument("--stale", action="store_true", help="print the crates whose edits weren't tried over the sources as they are")
    arguments = parser.parse_args()
    if arguments.pick is not None:
        pick([row for row in rows() if arguments.crate in (None, row["crate"])], arguments.pick, arguments.seed)
        return
    if arguments.tried:
        sys.exit(not try_all(arguments.tried))
    if arguments.stale:
        print("\n".join(stale(rows())))
        return
    found = list(check(CRATES))
    print("\n".join(found) if found else "all that tools/planted.csv names is there")
    print_counts(rows())
    sys.exit(bool(found))


if __name__ == "__main__":
    main()
