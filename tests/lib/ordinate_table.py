"""The table of ordinates of web mercator, and an ordinate by the rule of docs/DRAWING.md."""
import pathlib
import re

TABLE = pathlib.Path(__file__).resolve().parents[2] / "crates/mercator/src/table.rt"
# The millionths of a degree between two rows of the table.
STEP = 8192


def by_rule(table, latitude):
    """The ordinate by the parabola through three neighbours of the table."""
    step, past = divmod(latitude, STEP)
    first, second, third = table[step:step + 3]
    slope = (3 * STEP - past) * (second - first) - (STEP - past) * (third - second)
    return (2**27 * first + slope * past + 2**30) // 2**31


def read_table():
    """The numbers of the table, in their order."""
    rows = TABLE.read_text().split("[\n", 1)[1]
    return [int(number.replace("_", "")) for number in re.findall(r"[\d_]+", rows)]
