#!/usr/bin/env python3
"""Measures the repository's Python: long functions, many parameters, missing docstrings, long files. Usage: measure.py [--names]

A function's lines are those from its first to its last, without its docstring, blank lines and comments, and without
functions within it; its parameters are all but self and cls. A docstring is wanted of each module, class and function, but
not of main, of what begins with an underscore, of tests and their classes, and of functions within others or of at most
three lines. Read is each file of the folders below that ends in .py or begins with a line that names Python.

It prints how many there are of each kind, and with --names which. It ends with 1 where there are more of a kind than its
limit, which is what there was when it was last lowered: whoever lowers a count lowers the limit.
"""
import ast
import pathlib
import sys

TOP = pathlib.Path(__file__).resolve().parent.parent
# Where Python is, but for folders of what is made.
FOLDERS, APART = (".ci", "bench", "demo", "deploy", "tests", "tools"), {"out", "__pycache__"}
MOST_LINES, MOST_PARAMETERS, MOST_OF_FILE, FEW = 30, 4, 400, 3
LONG, WIDE, BARE, LARGE = "functions above 30 lines", "functions above 4 parameters", "missing docstrings", "files above 400 lines"
LIMITS = {LONG: 0, WIDE: 54, BARE: 262, LARGE: 0}
FUNCTIONS = (ast.FunctionDef, ast.AsyncFunctionDef)
SCOPES = (*FUNCTIONS, ast.ClassDef)


def is_python(path):
    """Whether a file is Python, by its name or by its first line."""
    if path.suffix:
        return path.suffix == ".py"
    with open(path, "rb") as file:
        return file.read(2) == b"#!" and b"python" in file.readline()


def sources():
    """The files of Python, each by its name with its text."""
    for folder in FOLDERS:
        for path in sorted((TOP / folder).rglob("*")):
            if path.is_file() and not APART & set(path.relative_to(TOP).parts) and is_python(path):
                yield str(path.relative_to(TOP)), path.read_text(encoding="utf-8")


def scopes_of(node, before=""):
    """The functions and classes of a module, each with its name and whether it stands within a function."""
    for child in ast.iter_child_nodes(node):
        if isinstance(child, SCOPES):
            name = f"{before}{child.name}"
            yield name, child, isinstance(node, FUNCTIONS)
            yield from scopes_of(child, f"{name}.")
        elif not isinstance(child, ast.expr):
            yield from ((name, found, is_inner or isinstance(node, FUNCTIONS)) for name, found, is_inner in scopes_of(child, before))


def documented(node):
    """The lines of a docstring, if there is one."""
    first = node.body[0] if node.body else None
    is_text = isinstance(first, ast.Expr) and isinstance(first.value, ast.Constant) and isinstance(first.value.value, str)
    return range(first.lineno, first.end_lineno + 1) if is_text else range(0)


def length(node, lines):
    """The lines of a function."""
    left = set(documented(node))
    for _, inner, _ in scopes_of(node):
        left |= set(range(inner.lineno, inner.end_lineno + 1))
    numbers = (number for number in range(node.lineno, node.end_lineno + 1) if number not in left)
    return sum(bool(lines[number - 1].strip()) and not lines[number - 1].lstrip().startswith("#") for number in numbers)


def width(node):
    """How many parameters a function has."""
    given = node.args
    names = [one.arg for one in (*given.posonlyargs, *given.args, *given.kwonlyargs, given.vararg, given.kwarg) if one is not None]
    return len(names) - (names[:1] in (["self"], ["cls"]))


def is_test(name):
    """Whether a name is that of a test, or of a file of tests."""
    return name.rpartition("/")[2].startswith("test") or name == "setUp" or name == "tearDown"


def wants_docstring(name, node, is_inner, file):
    """Whether a function or class has to say what it is."""
    if is_inner or node.name.startswith("_") or node.name == "main" or is_test(node.name):
        return False
    if isinstance(node, ast.ClassDef):
        return not is_test(file)
    return node.end_lineno - node.lineno + 1 > FEW


def found_in(file, text):
    """The kind and the name of each that is too long, too wide or bare."""
    module, lines = ast.parse(text), text.splitlines()
    if len(lines) > MOST_OF_FILE:
        yield LARGE, f"{file}: {len(lines)}"
    if ast.get_docstring(module) is None:
        yield BARE, file
    for name, node, is_inner in scopes_of(module):
        place = f"{file}:{node.lineno}: {name}"
        if isinstance(node, FUNCTIONS) and length(node, lines) > MOST_LINES:
            yield LONG, f"{place}: {length(node, lines)}"
        if isinstance(node, FUNCTIONS) and width(node) > MOST_PARAMETERS:
            yield WIDE, f"{place}: {width(node)}"
        if wants_docstring(name, node, is_inner, file) and ast.get_docstring(node) is None:
            yield BARE, place


def measured():
    """The names of each kind, in the whole repository."""
    found = {kind: [] for kind in LIMITS}
    for file, text in sources():
        for kind, name in found_in(file, text):
            found[kind].append(name)
    return found


def grown(found):
    """The kinds of which there are more than their limits."""
    return [f"{kind}: {len(names)}, where {LIMITS[kind]} are the most" for kind, names in found.items() if len(names) > LIMITS[kind]]


def main():
    if sys.argv[1:] not in ([], ["--names"]):
        sys.exit("usage: measure.py [--names]")
    found = measured()
    for kind, names in found.items():
        print(f"{kind}: {len(names)} (at most {LIMITS[kind]})")
        print("".join(f"    {name}\n" for name in names if sys.argv[1:]), end="")
    sys.exit("\n".join(grown(found)) or 0)


if __name__ == "__main__":
    main()
