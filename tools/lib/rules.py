"""The table of rules and promises, tools/rules.csv, and the page that is made of it.

A row is a rule or a promise. Its columns, with `; ` between the entries of a cell and a remark in round brackets at the
end of an entry, or alone:

    subject            the heading below which it stands, in the order of a request
    look for           words by which one looks for it
    rule or promise    what holds, in sentences of at most thirty words
    page               the page and the heading that have the rule, as `WMS: Queries`
    definition         CRATE/specs/MODULE NAMES, perhaps with `over`, `by` or `model` (of the code's steps) before it
    kept by            CRATE::CALL CLAUSES: clauses that keep it, by their names. A call that names none has one without a name
    code               CRATE/src/FILE: the file of a call that keeps it, which the page leaves out. With NAMES: what the program runs for it beside
                       these calls or in their place
    mutant             an edit of must-fail, `planted` for a row of planted.csv, or `tests` where tests alone refuse one
"""
import csv
import functools
import os
import pathlib
import re

import mutants

TABLE = pathlib.Path(__file__).resolve().parents[1] / "rules.csv"
DOCS = TABLE.parent.parent / "docs"
PAGE = DOCS / "developers" / "RULES.md"
CRATES_PAGE = TABLE.parent.parent / "crates" / "README.md"
COLUMNS = ["subject", "look for", "rule or promise", "page", "definition", "kept by", "code", "mutant"]
MOST_WORDS = 30
BEFORE = ("over", "by", "model")
HEAD = """# Rules and promises

Each rule and promise: the definition that states it, the clauses that keep it, and what runs for it in the program. The subjects stand in the order of a request; then come mapfiles and files, batches, sharing and the program. Each gate checks every cell; `tools/documents.py --write` makes this page of [rules.csv](RULES_CSV).

- `httpedge::exchange` is the call `exchange` of the crate `httpedge`; a name in small letters after it is a clause of that call. A call without one has one clause, which has no name. A call of a trait is promised of all that implement it. `laws` are facts about the definitions.
- Definitions and code stand below `crates/`; names after a file are in it. A *model* is a definition of the code's steps, which no rule cites.
- What *runs* in the program beside those calls, or in their place, comes after them. *Mutant* names the edit of `must-fail/` that each gate tries, or says that tests alone refuse one. [planted.csv](PLANTED_CSV) has mutants of the functions, or of the crates, of the other rows.
- Where a call takes memory, it may answer that it is out of memory instead. That it does so only where memory was refused is tested, not proved.
- A call that waits promises what holds where it returns. The loop of `eventloop` makes the calls of [Turns](#turns) and no others on its table.

[VERIFICATION.md](VERIFICATION_MD) says how strong the contracts are, what isn't proved, and what has to hold of [a journal's file](VERIFICATION_MD#the-file-of-a-journal).
"""
COLUMN_NAMES = "| Look for | Rule or promise | Definition | Kept by |\n|---|---|---|---|\n"


def rows():
    """The rows of the table, by their columns."""
    with TABLE.open(newline="") as file:
        reader = csv.DictReader(file)
        assert reader.fieldnames == COLUMNS, f"the columns are {reader.fieldnames}"
        return list(reader)


def entries(cell):
    """The entries of a cell: what stands before the remark, by words, and the remark."""
    for entry in filter(None, cell.split("; ")):
        words, _, remark = entry.partition("(")
        yield words.split(), remark.removesuffix(")") or None


def named_in(row, column):
    """The entries of a cell that name something, by words, without the word before a definition."""
    for words, _ in entries(row[column]):
        if words:
            yield words[1:] if words[0] in BEFORE else words


def crates_of(named):
    return {re.split("::|/", words[0])[0] for words in named}


def in_file(words, ending):
    """A file, and names in it."""
    path, *names = words or [""]
    return " ".join([f"`{path}{ending}`", *(f"`{name}`" for name in names)]) if path else ""


def remarked(text, remark):
    return f"{text} ({remark})" if text and remark else text or remark


def relative(path):
    """A path as the page links it."""
    return os.path.relpath(path, PAGE.parent)


def document(name):
    """The document of a name, wherever it lies in docs/; `crates` is the page of the crates."""
    return CRATES_PAGE if name == "crates" else next(DOCS.rglob(f"{name}.md"), DOCS / f"{name}.md")


def link(page):
    """A page and its heading, as the page of rules links them."""
    name, _, heading = page.partition(": ")
    anchor = re.sub(r"[^\w\- ]", "", heading.lower()).replace(" ", "-")
    target = f"#{anchor}" if name == PAGE.stem else f"{relative(document(name))}#{anchor}"
    return f"[{name}]({target})"


def shown_definition(words, remark):
    before, words = (f"{words[0]} ", words[1:]) if words[:1] and words[0] in BEFORE else ("", words)
    return remarked(before + in_file(words, ""), remark)


def shown_call(words, remark):
    return remarked(" ".join(f"`{word}`" for word in words), remark)


def shown_code(words, remark):
    """What runs beside a call or in its place. The file of a call that keeps the rule isn't shown: its crate and name are."""
    return remarked(in_file(words, ".rt"), remark) if len(words) != 1 or remark else ""


def shown_mutants(row):
    """The edits that the gate tries, or that tests alone refuse one. A mutant that is planted stands in planted.csv."""
    named = [words[0] for words, _ in entries(row["mutant"]) if words[0] != "planted"]
    return f"; *mutant* {', '.join(f'`{name}`' if name.endswith('.edit') else name for name in named)}" if named else ""


def shown(row):
    """The line of a row in the table of the page."""
    cells = [row["look for"], f"{row['rule or promise']} ({link(row['page'])})"]
    columns = {"definition": shown_definition, "kept by": shown_call, "code": shown_code}
    *columns, code = ("; ".join(filter(None, (show(*entry) for entry in entries(row[column])))) for column, show in columns.items())
    cells += columns
    cells[-1] += (f"; *runs* {code}" if code else "") + shown_mutants(row)
    return f"| {' | '.join(cells)} |\n"


def page():
    """The page that the table gives."""
    head = HEAD.replace("RULES_CSV", relative(TABLE)).replace("PLANTED_CSV", relative(mutants.TABLE))
    parts, subject = [head.replace("VERIFICATION_MD", relative(document("VERIFICATION")))], None
    for row in rows():
        if row["subject"] != subject:
            subject = row["subject"]
            parts.append(f"\n## {subject}\n\n{COLUMN_NAMES}")
        parts.append(shown(row))
    return "".join(parts)


def found_definition(words, crates):
    """A module of specs/, and definitions in it."""
    crate, _, module = words[0].partition("/specs/")
    is_module = crate in crates and module in crates[crate].modules
    yield f"the module {words[0]}", is_module
    for name in words[1:]:
        yield f"the definition {name} of {words[0]}", is_module and crates[crate].defines(name, module)


def found_call(words, remark, crates):
    """A call and its clauses."""
    crate, _, name = words[0].partition("::")
    is_there = crate in crates and crates[crate].has(name)
    yield f"the call {words[0]}", is_there
    for clause in words[1:]:
        yield f"the clause {clause} of {words[0]}", is_there and clause in crates[crate].clauses(name)
    if not words[1:] and remark is None:
        yield f"a clause without a name of {words[0]}", is_there and crates[crate].has_nameless_clause(name)


def found_code(words, row, crates):
    """A file of src/, and what it declares."""
    crate, _, file = words[0].partition("/src/")
    is_file = crate in crates and f"{file}.rt" in crates[crate].files
    yield f"the file {words[0]}.rt", is_file
    for name in words[1:]:
        yield f"{name} of {words[0]}.rt", is_file and crates[crate].declares_in(file, name)
    if not words[1:]:
        kept = [call[0].partition("::")[2] for call in named_in(row, "kept by") if call[0].startswith(f"{crate}::")]
        yield f"a call that keeps the rule in {words[0]}.rt", is_file and any(crates[crate].declares_in(file, name) for name in kept)


@functools.cache
def planted():
    return mutants.rows()


def is_planted(row):
    """Whether a mutant of planted.csv changes a function of the row."""
    named = [words for column in ("kept by", "code") for words in named_in(row, column)]
    functions = {word.rpartition("::")[2] for words in named for word in words}
    return any(mutant["crate"] in crates_of(named) and mutant["function"].rpartition("::")[2] in functions for mutant in planted())


def found_mutants(row, crates):
    """The edits of a row, and whether planted.csv has a mutant of it."""
    named = [words for column in ("definition", "kept by", "code") for words in named_in(row, column)]
    edits = set().union(*(crates[name].edits for name in crates_of(named) if name in crates))
    for (mutant, *_), _ in entries(row["mutant"]):
        if mutant.endswith(".edit"):
            yield f"the edit {mutant} of a crate of the row", mutant in edits
        else:
            yield f"the mutant {mutant}", mutant == "tests" or (mutant == "planted" and is_planted(row))


def found_words(row):
    """That no sentence of a rule is too long, and that no cell which has to say something is empty."""
    for sentence in re.split(r"(?<=\.) ", row["rule or promise"]):
        yield f"a sentence of at most {MOST_WORDS} words in place of: {sentence}", len(sentence.split()) <= MOST_WORDS
    for column in ("subject", "look for", "rule or promise", "page", "definition", "kept by"):
        yield f"the {column} of {row['rule or promise']}", bool(row[column])
    yield f"a cell without the sign | in {row['look for']}", not any("|" in cell for cell in row.values())


def found(row, crates):
    """What a row names, and whether it is there."""
    yield from found_words(row)
    for words in named_in(row, "definition"):
        yield from found_definition(words, crates)
    for words, remark in entries(row["kept by"]):
        yield from found_call(words, remark, crates) if words else ()
    for words in named_in(row, "code"):
        yield from found_code(words, row, crates)
    yield from found_mutants(row, crates)


def check(crates):
    """What the cells name and the page says: each with its place, and whether it is there."""
    for number, row in enumerate(rows(), 2):
        yield from ((f"tools/rules.csv:{number}: {what}", is_there) for what, is_there in found(row, crates))
    is_made = PAGE.exists() and PAGE.read_text() == page()
    yield f"{relative(PAGE)}: the page that tools/rules.csv gives (tools/documents.py --write makes it)", is_made
