"""Programs of bench/rust, which are crates beside copies of this repository's, proved and built by rt."""
import pathlib
import shutil
import subprocess
import sys

TOP = pathlib.Path(__file__).resolve().parents[2]
SOURCES = TOP / "bench" / "rust"
USED = ("mapparse", "layers", "mapdefs", "geom", "scaledenom", "viewport", "symbols", "compose")


def needed(used):
    """The crates that a program stands on, in the order of crates.txt, and what each line of it has."""
    lines = (TOP / "crates.txt").read_text().splitlines()
    stands_on = {name: below.split() for name, below in (line.split(":") for line in lines if line[:1] not in ("", "#"))}
    found, open_names = set(), list(used)
    while open_names:
        name = open_names.pop()
        if name in stands_on and name not in found:
            found.add(name)
            open_names += stands_on[name]
    return [name for name in stands_on if name in found], stands_on


def laid(folder, source_name, used):
    """The folder of a program's crate, which is laid beside copies of the crates that it stands on."""
    top, called = pathlib.Path(folder), source_name.partition(".")[0].replace("_", "")
    names, stands_on = needed(used)
    for name in names:
        shutil.copytree(TOP / "crates" / name, top / "crates" / name, ignore=shutil.ignore_patterns("out"))
    source = top / "crates" / called / "src"
    source.mkdir(parents=True)
    shutil.copy(SOURCES / source_name, source / "main.rt")
    lines = [f"{name}: {' '.join(stands_on[name])}" for name in names] + [f"{called}: {' '.join(used)}"]
    (top / "crates.txt").write_text("\n".join(lines) + "\n")
    subprocess.run(["git", "init", "-q", folder], check=True)
    return source.parent


def build(folder, source_name="painting_counts.rt.txt", used=USED):
    """The program that counts paintings, or another one, built in the folder."""
    crate = laid(folder, source_name, used)
    subprocess.run(["rt", "run", "--", "0"], cwd=crate, input=b"", stdout=sys.stderr, check=True)
    return str(crate / "out" / crate.name)
