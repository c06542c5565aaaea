#!/usr/bin/env python3
"""Looks whether what the documents name is there.

Usage: documents.py [--write]

Read are README.md, CHANGELOG.md, what lies in docs/, the README.md of bench/, crates/, demo/, deploy/, tests/ and
tools/, and of bench/results/, which says what was, the links. Looked for are

- links: the file, and the heading in it;
- paths that begin with a folder of the repository or with a crate, also without .antt or .rt at the end, and files in
  the first column of a README's table;
- calls and other code: `name` of `crate`, `name` of `crate/src/file.rt`, `crate::Type::call` and `Type::call`, but not
  in CHANGELOG.md, which says what was;
- definitions: `Name` before or behind a file of specs/, and the modules that stand behind `crate/specs`:;
- edits that must fail, by their names that end in .edit, and what tools/planted.csv names (lib/mutants.py);
- clauses: `name` behind the word clause;
- each crate of crates.txt: what it depends on above it, and its line in crates/README.md below the same heading;
- each cell of tools/rules.csv, and whether docs/developers/RULES.md is the page that it gives (lib/rules.py);
- each heading and each code word of the five pages of rules, by which one looks for a row there (lib/lookups.py);
- the date of the rules that the program prints: the day on which one of these pages changed last (lib/dated.py).

With --write RULES.md is made anew, tools/rules.date has today where a page of rules changed, and nothing is looked for. What a merge left in a document counts as one that isn't
there. The script prints each that isn't there, with the file and the line of the document, and at the end how many names
are there and how many aren't. It ends with 1 where one isn't.
"""
import pathlib
import re
import sys

sys.path.insert(0, str(pathlib.Path(__file__).resolve().parent / "lib"))

import dated
import lookups
import mutants
import rules
from crates import CLAUSES, CRATES, declares

TOP = pathlib.Path(__file__).resolve().parent.parent
FOLDERS = ("bench", "demo", "deploy", "tests", "tools")
CRATES_PAGE = TOP / "crates" / "README.md"
NAME = re.compile(r"[A-Za-z_]\w*(::\w+)*")
# backquoted names with commas between them, alone and each perhaps with a remark in brackets
NAMES = r"(?:`[\w:]+`(?:,| and) )*`[\w:]+`"
REMARKED = r"(?:`[\w:]+`(?: \([^()]*\))?(?:,| and|, and) )*`[\w:]+`"


def headings(path):
    """The names by which the headings of a document are linked."""
    titles = re.findall(r"^#+ (.*)$", path.read_text(), re.M)
    return {re.sub(r"[^\w\- ]", "", title.lower()).replace(" ", "-") for title in titles}


def is_linked(document, target):
    """Whether the file of a link is there, and its heading."""
    if re.match(r"[a-z]+:", target):
        return True
    path, _, heading = target.partition("#")
    path = document.parent / path if path else document
    return path.exists() and (not heading or path.suffix != ".md" or heading in headings(path))


def is_path(path):
    """Whether a path is there. Words in capitals and stars stand for anything, and demo/out is made by demo/show."""
    pattern = re.sub(r"\b[A-Z]{2,}\b|the_wrong_behaviour", "*", path.rstrip("/"))
    if path.split("/")[0] in CRATES:
        pattern = "crates/" + pattern
    return any(any(TOP.glob(pattern + ending)) for ending in ("", ".antt", ".rt")) or path == "demo/out"


def names_of(text):
    """The backquoted names of a list, without what stands in brackets."""
    found = re.findall(r"`([^`]+)`", re.sub(r"\([^()]*\)", "", text))
    return [name for name in found if NAME.fullmatch(name)]


def split(path):
    """The crate of a path of specs/ or src/, and the name of its file without its ending."""
    crate, _, file = path.split("/")
    return CRATES[crate], file.partition(".")[0]


def found_links(document, line):
    for target in re.findall(r"\]\(([^)\s]+)\)", line):
        yield f"the link {target}", is_linked(document, target)


def found_paths(document, line):
    """Paths, and the files in the first column of a table."""
    firsts = (*FOLDERS, "docs", "crates", ".ci", *CRATES)
    for path in re.findall(r"`([\w.@*-]+/[\w./@*-]*)[ `]", line):
        if path.split("/")[0] in firsts:
            yield f"the path {path}", is_path(path)
    if document.parent.name in FOLDERS and line.startswith("| `"):
        for word in re.findall(r"`(\w[\w@-]*\.\w+)[ `]", line.split(" | ")[0]):
            yield f"the file {word}", any(document.parent.rglob(word))


def found_edits(document, line):
    for edit in re.findall(r"`(\w+\.edit)`", line):
        yield f"the edit {edit}", any(edit in crate.edits for crate in CRATES.values())


def found_code(document, line):
    """Calls and other code of crates and of files."""
    for listed, crate in re.findall(rf"({REMARKED}) of `(\w+)`", line):
        for name in names_of(listed) if crate in CRATES else []:
            yield f"{name} of {crate}", name in CRATES or CRATES[crate].has(name)
    for listed, path in re.findall(rf"({REMARKED}) of `(\w+/src/\w+\.rt)`", line):
        crate, file = split(path) if path.split("/")[0] in CRATES else (None, None)
        for name in names_of(listed):
            yield f"{name} of {path}", crate is not None and declares(crate.files.get(f"{file}.rt", ""), name.rpartition("::")[2]) and crate.has(name)
    for first, name in re.findall(r"`(\w+)::(\w+(?:::\w+)*)`", line):
        if first in CRATES:
            yield f"{first}::{name}", CRATES[first].has(name)
        elif any(declares(crate.code, first) for crate in CRATES.values() if first[0].isupper()):
            yield f"{first}::{name}", any(crate.has(f"{first}::{name}") for crate in CRATES.values())


def found_definitions(document, line):
    """Definitions beside a file of specs/, and modules behind `crate/specs`:."""
    listed = [(names, path) for names, path in re.findall(rf"({NAMES}) (?:of )?`(\w+/specs/\w+(?:\.antt)?)`", line)]
    listed += [(names, path) for path, names in re.findall(rf"`(\w+/specs/\w+)` \(({NAMES})", line)]
    for names, path in listed:
        crate, module = split(path) if path.split("/")[0] in CRATES else (None, None)
        for name in names_of(names):
            if "::" not in name and "/" not in name:
                yield f"the definition {name} of {path}", crate is not None and crate.defines(name, module)
    for crate, modules in re.findall(r"`(\w+)/specs`: ((?:[^;|()]|\([^()]*\))*)", line):
        for name in names_of(modules) if crate in CRATES else []:
            yield f"the module {crate}/specs/{name}", name in CRATES[crate].modules or CRATES[crate].has(name)


def found_clauses(document, line):
    for clause in re.findall(r"\bclauses? `(\w+)`", line):
        yield f"the clause {clause}", clause in CLAUSES


def headed(path, heading, name):
    """The names of a file, in its order, each with the heading before it."""
    found, last = [], None
    for line in path.read_text().splitlines():
        if begins := re.fullmatch(heading, line):
            last = begins[1]
        elif named := re.match(name, line):
            found.append((last, named[1]))
    return found


def found_crates():
    """Whether crates.txt goes from the lowest crate up, and crates/README.md has the same crates below the same headings."""
    listed, described = headed(TOP / "crates.txt", r"# (\w+)", r"(\w+):"), headed(CRATES_PAGE, r"## (\w+)", r"\| `(\w+)` \|")
    for heading, name in listed:
        yield f"crates/README.md: one line of {name} below {heading}", described.count((heading, name)) == 1
    for heading, name in described:
        yield f"crates.txt: {name} below {heading}", (heading, name) in listed
    below = set()
    for name, used in re.findall(r"^(\w+):(.*)$", (TOP / "crates.txt").read_text(), re.M):
        yield from ((f"crates.txt: {other} above {name}", other in below) for other in used.split() if other in CRATES)
        below.add(name)


def finders_of(document, results):
    """What is looked for in a document."""
    if document in results:
        return (found_links,)
    named = (found_links, found_paths, found_edits, found_definitions, found_clauses)
    return named if document.name == "CHANGELOG.md" else (*named, found_code)


def found_in(document, finders):
    """What a document names, each with its line, and whether it is there; and what a merge left in it."""
    is_code = False
    for number, line in enumerate(document.read_text().splitlines(), 1):
        place = f"{document.relative_to(TOP)}:{number}"
        if line.startswith(("<<<<<<< ", ">>>>>>> ")):
            yield f"{place}: a line without what a merge left in it", False
        is_code ^= line.startswith("```")
        if not is_code and not line.startswith("    "):
            yield from ((f"{place}: {what}", is_there) for finder in finders for what, is_there in finder(document, line))


def found():
    """All that is named, and whether it is there."""
    results = sorted(TOP.glob("bench/results/*.md"))
    documents = [TOP / "README.md", TOP / "CHANGELOG.md", *sorted(TOP.glob("docs/**/*.md")), CRATES_PAGE, *(TOP / name / "README.md" for name in FOLDERS)]
    for document in [*documents, *results]:
        yield from found_in(document, finders_of(document, results))
    yield from found_crates()
    yield from rules.check(CRATES)
    yield from lookups.check(rules.rows())
    yield from dated.check()


def main():
    if sys.argv[1:] == ["--write"]:
        rules.PAGE.write_text(rules.page())
        dated.write()
        return
    if sys.argv[1:]:
        sys.exit(__doc__.split("\n\n")[1])
    passed = failed = 0
    for what, is_there in found():
        passed, failed = passed + is_there, failed + (not is_there)
        if not is_there:
            print(f"{what} isn't there")
    for what in mutants.check(CRATES):
        print(what)
        failed += 1
    print(f"{passed} passed, {failed} failed")
    sys.exit(failed > 0)


if __name__ == "__main__":
    main()
