#!/usr/bin/env python3
"""Plays the cases: worked examples, each a mapfile, a script and what the program answers. Usage: cases.py PROGRAM [CASE ..]

A case is a folder of tests/cases, as docs/developers/CASES.md says. The program runs its script in the folder, and what
comes out, with pictures drawn in letters, has to be its file `answer`, byte by byte. Where the program that Rattle's own
compiler built lies beside PROGRAM, as the gate leaves it there, it has to answer the same. It prints for a case that is
answered otherwise what differs, and ends with 1.

Gate: PROGRAM; 3 s
"""
import difflib
import pathlib
import subprocess
import sys

sys.path.insert(0, str(pathlib.Path(__file__).resolve().parents[1] / "lib"))

from transcripts import readable

CASES = pathlib.Path(__file__).resolve().parents[1] / "cases"
SECONDS = 60


def answer(program, case):
    """What comes out of a case: the transcript, then what standard error got, and the status where it isn't 0."""
    ran = subprocess.run([program, "run", "map", "script"], cwd=case, stdin=subprocess.DEVNULL, capture_output=True, timeout=SECONDS)
    status = f"status {ran.returncode}\n" if ran.returncode else ""
    return readable(ran.stdout.decode()) + ran.stderr.decode() + status


def main():
    if len(sys.argv) < 2:
        sys.exit(__doc__)
    given = pathlib.Path(sys.argv[1]).resolve()
    programs = [given, *given.parent.glob(given.name + ".by-rattle")]
    cases = [CASES / name for name in sys.argv[2:]] or sorted(path for path in CASES.iterdir() if path.is_dir())
    wrong = 0
    for program in programs:
        for case in cases:
            wanted, got = (case / "answer").read_text(encoding="utf-8"), answer(program, case)
            if got != wanted:
                wrong += 1
                print(f"{case.name} of {program.name}:")
                print("\n".join(difflib.unified_diff(wanted.splitlines(), got.splitlines(), "answer", "what came", lineterm="")))
    print(f"{len(cases)} cases by {len(programs)} programs, {wrong} answered otherwise")
    sys.exit(wrong > 0 or not cases)


main()
