"""What the crates declare: their code by files, their definitions by modules, and their edits."""
import functools
import pathlib
import re

import mutants

TOP = pathlib.Path(__file__).resolve().parents[2]


class Crate:
    """What a crate declares: its code by files, its definitions by modules, and its edits."""

    def __init__(self, folder):
        self.files = {path.name: path.read_text() for path in (folder / "src").rglob("*.rt")}
        self.modules = {path.stem: path.read_text() for path in (folder / "specs").glob("*.antt")}
        self.edits = {path.name for path in folder.glob("must-fail/*.edit")} | mutants.own_edits(folder.name)
        self.code = "\n".join(self.files.values())
        self.calls = set().union(*(methods(text) for text in self.files.values()))
        self.other_names = dict(re.findall(r"^pub type (\w+)[^=]*= (\w+)", self.code, re.M))

    def defines(self, name, module=None):
        """Whether a definition of that name stands in a module, or in any."""
        texts = self.modules.values() if module is None else [self.modules.get(module, "")]
        return any(re.search(rf"^ *(\w+ )*pub (\w+ )*{name}\b|^  (pub )?{name} :", text, re.M) for text in texts)

    def owners_of(self, path):
        """The last name of a path, and of a type that has two names the other one."""
        name = path.rpartition("::")[2]
        return {name, self.other_names.get(name, name)}

    def has(self, name):
        """Whether an item, a method, a variant or a definition of that name, as `laws::name` or `Type::call`, is there."""
        path, _, last = name.rpartition("::")
        owners = self.owners_of(path)
        if path and min(owners)[0].isupper():
            return any(self.has_member(owner, last) for owner in owners)
        if path:
            return declares(self.files.get(f"{min(owners)}.rt", ""), last)
        return declares(self.code, last) or self.defines(last) or self.gives_out(last)

    def has_member(self, owner, name):
        return (owner, name) in self.calls or self.is_variant(owner, name) or (self.gives_out(owner) and is_method(owner, name))

    def gives_out(self, name):
        """Whether it gives out an item of another crate under this name."""
        return re.search(rf"^pub use [^;]*\b{name}\b[^;]*;", self.files.get("lib.rt", ""), re.M) is not None

    def is_variant(self, owner, name):
        """Whether a type has a variant or a field of that name."""
        if not declares(self.code, owner):
            return False
        body = re.search(rf"\b(?:enum|struct) {owner}\b.*?^}}", self.code, re.M | re.S)
        return body is not None and re.search(rf"^    (pub |ghost )?{name}\b", body[0], re.M) is not None

    def declares_in(self, file, name):
        """Whether a file of src/ declares an item, or a method of a type, of that name."""
        text = self.files.get(f"{file}.rt", "")
        path, _, last = name.rpartition("::")
        owners = self.owners_of(path) if path[:1].isupper() else set()
        return declares(text, last) and (not owners or any((owner, last) in methods(text) for owner in owners))

    def contracts(self, name):
        """The contracts of a call, of each where several have the name."""
        path, _, call = name.rpartition("::")
        owners = self.owners_of(path) if path[:1].isupper() else set()
        for text in self.files.values():
            for header, body in blocks(text) if owners else [("", text)]:
                if not owners or owners & types(header):
                    for found in re.finditer(rf"\bfn {call}\b", body):
                        yield contract_at(body, found.end())

    def clauses(self, name):
        """The clauses of a call, by the names behind `ensures`."""
        return {clause for contract in self.contracts(name) for clause in re.findall(r"\bensures\*? (\w+)", contract)}

    def has_nameless_clause(self, name):
        """Whether a call has a clause without a name."""
        return any(re.search(r"\bensures\*? \{", contract) for contract in self.contracts(name))


def contract_at(text, start):
    """What stands between the name of a call and its body, or the end of its declaration. A clause may have several lines, with braces and semicolons."""
    lines, depth = [], 0
    for line in text[start:].split("\n"):
        if depth == 0 and lines and line.strip() in ("{", "{}"):
            break
        lines.append(line)
        depth += line.count("{") - line.count("}")
        if depth == 0 and line.endswith(";"):
            break
    return "\n".join(lines)


def is_method(owner, name):
    """Whether any crate has the method."""
    return any((owner, name) in crate.calls for crate in CRATES.values())


@functools.cache
def declared(text):
    """What a text of code declares: items, ghost members and variants."""
    items = re.findall(r"\b(?:fn|struct|enum|trait|const|type|mod|ghost|static) (?=(\w+))", text)
    return {*items, *re.findall(r"^    (\w+)[,({ ]", text, re.M)}


def declares(text, name):
    """Whether a text of code declares an item, a ghost member or a variant of that name."""
    return name in declared(text)


def blocks(text):
    """The impl blocks and traits of a file: what stands before the brace, and what stands in it."""
    return re.findall(r"^((?:pub )?(?:impl|trait)\b[^{]*){(.*?)^}", text, re.M | re.S)


def types(header):
    """The types and traits that a block is of."""
    return set(re.findall(r"\b[A-Z]\w*", header))


def methods(text):
    """The methods of a file, each with the types and traits of its block."""
    return {
        (owner, name)
        for header, body in blocks(text)
        for owner in types(header)
        for name in re.findall(r"^    (?:pub |pub\(crate\) |const |ghost )*(?:fn )?(\w+)\b", body, re.M)
    }


CRATES = {path.name: Crate(path) for path in sorted((TOP / "crates").iterdir()) if (path / "src").is_dir()}
CLAUSES = {name for crate in CRATES.values() for name in re.findall(r"\bensures\*? (\w+)", crate.code)}
