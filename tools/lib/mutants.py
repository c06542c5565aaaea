"""The table of mutants that were planted, planted.csv, and whether what its rows name is there. planted.py says what a row has."""
import csv
import hashlib
import pathlib
import re

TOP = pathlib.Path(__file__).resolve().parents[2]
TABLE = TOP / "tools" / "planted.csv"
COLUMNS = ["crate", "function", "wrong behaviour", "refused by", "date", "edit", "tried", "sources"]
# what the heading of a version of CHANGELOG.md ends with until it is released
NOT_YET = "(not released yet)"
AT_FIRST = "nothing at first, then "


def rows():
    """The rows of the table, by their columns."""
    with TABLE.open(newline="") as file:
        reader = csv.DictReader(file)
        assert reader.fieldnames == COLUMNS, f"the columns are {reader.fieldnames}"
        return list(reader)


def edit_of(row):
    """The name of a row's own edit, if it has one."""
    return row["refused by"].split("; ")[0].removeprefix("edit ") if row["edit"] else None


def own_edits(crate):
    """The names of the edits that stand in a crate's rows."""
    return {edit_of(row) for row in rows() if row["crate"] == crate and row["edit"]}


def replaced(text):
    """The file of an edit, and the texts that it replaces, each with what takes its place."""
    lines = [line.partition(":") for line in text.splitlines()]
    files = [rest.strip() for word, _, rest in lines if word == "file"]
    old, new = ([rest.strip() for word, _, rest in lines if word == name] for name in ("old", "new"))
    assert len(files) == 1 and len(old) == len(new) > 0, f"an edit has a line `file:` and pairs of `old:` and `new:`: {text}"
    return files[0], list(zip(old, new))


def sum_of(crate):
    """The sum of a crate's sources: names and bytes of its code, its definitions and its proofs."""
    whole = hashlib.sha256()
    folder = TOP / "crates" / crate
    for path in sorted(path for part in ("src", "specs", "proofs") for path in (folder / part).rglob("*") if path.is_file()):
        whole.update(f"{path.relative_to(folder)} {hashlib.sha256(path.read_bytes()).hexdigest()}\n".encode())
    return whole.hexdigest()[:16]


def kind_of(row):
    """The column of the counts: what refuses the mutant, by the first of it."""
    by = row["refused by"]
    if by.startswith(AT_FIRST):
        return "nothing at first"
    first = re.match(r"\w+", by)[0]
    return {"test": "tests", "case": "tests", "proof": "nothing"}.get(first, first)


def missing(row, crates, names):
    """What a row names and isn't there, where `names` are the clauses and the functions of all crates."""
    crate = crates.get(row["crate"])
    if crate is None:
        yield f"the crate {row['crate']}"
        return
    if row["function"] and not crate.has(row["function"]):
        yield f"the function {row['function']}"
    if not re.fullmatch(r"(\d{4}-\d\d-\d\d)?", row["date"]):
        yield f"the date {row['date']}"
    if not row["wrong behaviour"]:
        yield "the wrong behaviour"
    for part in row["refused by"].removeprefix(AT_FIRST).split("; "):
        yield from missing_of(part, crate, names)


def missing_of(part, crate, names):
    """What a part of the column of what refuses a mutant names and isn't there."""
    word, _, rest = part.partition(" ")
    clauses, every_function, laws = names
    if word == "edit" and rest not in crate.edits:
        yield f"the edit {rest}"
    elif word == "clause":
        listed, _, function = rest.partition("of ")
        functions = re.findall(r"[\w:]+", re.sub(r"\b(and of|or)\b", " ", function))
        found = set().union(*(crate.clauses(name) for name in functions)) if functions else clauses
        yield from (f"the function {name}" for name in functions if not crate.has(name))
        yield from (f"the clause {name} of {function or 'any function'}" for name in listed.split() if name not in found)
    elif word in ("test", "tests") or part.startswith("prover and test "):
        tests = part.removeprefix("prover and ").split()[1:]
        yield from (f"the test {name}" for name in tests if name not in every_function)
    elif word == "law" and rest not in laws:
        yield f"the law {rest}"
    elif word == "script" and not (TABLE.parent.parent / rest).exists():
        yield f"the script {rest}"
    elif word == "case" and not (TABLE.parent.parent / "tests/cases" / rest).exists():
        yield f"the case {rest}"
    elif word not in ("edit", "law", "case", "script", "prover", "nothing:", "proof"):
        yield f"anything of the name {word}, which refuses a mutant,"


def all_names(crates):
    """The clauses, the functions and the laws of all crates."""
    code = "\n".join(crate.code for crate in crates.values())
    laws = "\n".join(crate.files.get("laws.rt", "") for crate in crates.values())
    return set(re.findall(r"\bensures\*? (\w+)", code)), set(re.findall(r"\bfn (\w+)", code)), set(re.findall(r"\bfn (\w+)", laws))


def unplaced(crate, name, text):
    """The texts that an edit replaces and that don't stand once in its file."""
    file, pairs = replaced(text)
    path = TOP / "crates" / crate / file
    code = path.read_text() if path.is_file() else ""
    return [f"{crate}: {name}: `{old}` stands {code.count(old)} times in {file}" for old, _ in pairs if code.count(old) != 1]


def is_released():
    """Whether CHANGELOG.md begins with a version that is released."""
    first = next(line for line in (TOP / "CHANGELOG.md").read_text().splitlines() if line.startswith("## "))
    return not first.endswith(NOT_YET)


def stale(table):
    """The crates whose own edits weren't tried over the sources as they are."""
    kept = sorted({row["crate"] for row in table if row["edit"]})
    return [name for name in kept if any(row["sources"] != sum_of(name) for row in table if row["edit"] and row["crate"] == name)]


def check_edits(table):
    """What isn't so of the edits, a line each."""
    for row in table:
        name = edit_of(row)
        if name and (TOP / "crates" / row["crate"] / "must-fail" / name).exists():
            yield f"{row['crate']}: {name} is a file of must-fail, and of a row of tools/planted.csv, too"
        elif name:
            yield from unplaced(row["crate"], name, row["edit"])
    for path in sorted(TOP.glob("crates/*/must-fail/*.edit")):
        yield from unplaced(path.parent.parent.name, path.name, path.read_text())
    if is_released():
        yield from (f"{name}: its edits weren't tried over its sources as they are: tools/planted.py --try {name}" for name in stale(table))


def check(crates):
    """What the table names and isn't there, and what isn't so of the edits, a line each."""
    table, names = rows(), all_names(crates)
    for number, row in enumerate(table, 2):
        yield from (f"tools/planted.csv, row {number}: {what} isn't there" for what in missing(row, crates, names))
    yield from check_edits(table)
    listed = [(row["crate"], row["refused by"].removeprefix("edit ")) for row in table if kind_of(row) == "edit"]
    for name, crate in crates.items():
        for edit in sorted(crate.edits):
            if listed.count((name, edit)) != 1:
                yield f"crates/{name}/must-fail/{edit}: tools/planted.csv has {listed.count((name, edit))} rows of it"
