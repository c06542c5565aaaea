"""The commands of a batch as people write them, and the words on one that a server refused. Used by batch."""
import os
import re
import shutil
import subprocess
import tempfile

from administration import KINDS, MOST

TOP = os.path.dirname(os.path.dirname(os.path.dirname(os.path.realpath(__file__))))
BUILT = os.path.join(TOP, "crates", "mapservd", "out", "mapservd")


class Unreadable(Exception):
    """Why there is no batch to send, in a sentence."""


class Command:
    """A command as it was written, the bytes that say it in a batch, and its table where it has one."""

    def __init__(self, text, data, table=None):
        self.text, self.data, self.table = text, data, table


def table_of(path, standard_input):
    """The bytes of a table, from a file or from standard input."""
    try:
        if path == "-":
            return standard_input.read()
        with open(path, "rb") as file:
            return file.read()
    except OSError as error:
        raise Unreadable(f"{path} can't be read: {error.strerror}") from error


def command_of(text, standard_input):
    """A command: ON, OFF or CLEAR and a layer, or APPEND, a file and a layer."""
    line = os.fsencode(text)
    if b"\n" in line:
        raise Unreadable(f"{text!r} is more than one line: give each command by itself")
    if not text.startswith("APPEND "):
        return Command(text, line + b"\n")
    words = text.split(" ", 2)
    if len(words) != 3:
        raise Unreadable(f"APPEND takes a file and a layer, as APPEND new.csv cities, and no {text!r}")
    table = table_of(words[1], standard_input)
    return Command(text, b"APPEND %d %s\n%s" % (len(table), os.fsencode(words[2]), table), table)


def lines_of(text):
    """The lines of a text, which LF ends or CR and LF: a layer's name may have other characters that end lines elsewhere."""
    return [line.removesuffix("\r") for line in text.removesuffix("\n").split("\n")] if text else []


def commands_of(texts, standard_input):
    """The commands; where one text is -, its lines on standard input are commands."""
    if sum(text == "-" or text.startswith("APPEND - ") for text in texts) > 1:
        raise Unreadable("standard input is named twice, and can be read once")
    found = []
    for text in texts:
        lines = lines_of(os.fsdecode(table_of("-", standard_input))) if text == "-" else [text]
        if text == "-" and any(line.startswith("APPEND - ") for line in lines):
            raise Unreadable("APPEND - stands among the commands on standard input: name a file there")
        found += [command_of(line, standard_input) for line in lines]
    size = sum(len(command.data) for command in found)
    if size > MOST:
        raise Unreadable(f"a batch has at most {MOST:,} bytes, and this one would have {size:,}: send it in parts")
    return found


def program_of(named):
    """The program that says what is wrong with a table: the one that is named, the built one, or the installed one."""
    return named or (BUILT if os.access(BUILT, os.X_OK) else shutil.which("mapservd"))


def fault_of(table, columns, program):
    """What is wrong with a table, in the words of `mapservd check` on a small map; nothing where it finds no fault."""
    with tempfile.TemporaryDirectory() as folder:
        with open(os.path.join(folder, "t.csv"), "wb") as file:
            file.write(table)
        keys = "".join(f"PROCESSING {quoted(key + name)}\n" for key, name in zip(("CSV_X=", "CSV_Y="), columns))
        with open(os.path.join(folder, "t.map"), "w", encoding="utf-8") as file:
            file.write(f"MAP LAYER NAME a TYPE POINT\n{keys}DATA t.csv\nCLASS END END END\n")
        said = subprocess.run([program, "check", "--explain", "t.map"], cwd=folder, capture_output=True, text=True, errors="replace")
    found = re.search(r"^t\.map:\d+: (.*)", said.stderr, re.M)
    return found[1].removeprefix("the file that DATA names is no table of points: ") if said.returncode == 1 and found else None


def quoted(text):
    return f"'{text}'" if '"' in text else f'"{text}"'


def refusal(answer, commands, columns, program):
    """Why a batch was refused, in a sentence."""
    number, kind = answer.numbers
    if number == 0 or number > len(commands):
        return f"{KINDS[kind]}; nothing has changed"
    command = commands[number - 1]
    return f"command {number}, {command.text}: {words_of(kind, command, columns, program)}; nothing has changed"


def words_of(kind, command, columns, program):
    """Why a command is refused, by the number of its kind."""
    if kind != 4 or command.table is None:
        return KINDS[kind]
    if not program:
        return f"{KINDS[kind]} (mapservd isn't there to say more: name it by --program)"
    try:
        fault = fault_of(command.table, columns, program)
    except OSError as error:
        return f"{KINDS[kind]} ({program} can't be asked for more: {error.strerror})"
    names = " and ".join(columns)
    return fault or f"the table is one by the columns {names}: does the layer read others, by CSV_X and CSV_Y? Name them by --columns"
