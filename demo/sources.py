"""The crates that the program is made of, their digest, and whether the program is built of them."""
import hashlib
import os

TOP = os.path.dirname(os.path.dirname(os.path.realpath(__file__)))
PROGRAM = "mapservd"
BUILT = os.path.join(TOP, "crates", PROGRAM, "out", PROGRAM)
# The digest of the sources that the program was made of stands beside it.
DIGEST = BUILT + ".sources"
# Folders of a crate that the program isn't made of.
APART = ("out", "must-fail")


def crates():
    """The crates that the program is made of, from the lowest up, each with those that it names below it."""
    below = {}
    with open(os.path.join(TOP, "crates.txt"), encoding="utf-8") as file:
        for line in file:
            name, found, rest = line.partition(":")
            if found and not line.startswith("#"):
                below[name] = [other for other in rest.split() if other in below]
    needed = {PROGRAM}
    for name in reversed(list(below)):
        needed |= {*below[name]} if name in needed else set()
    return {name: others for name, others in below.items() if name in needed}


def digest_of(below):
    """The digest of all that the program is made of: names and bytes, whatever the times of the files are."""
    paths = [os.path.join(TOP, "crates.txt"), os.path.join(TOP, "HANDLES")]
    for name in below:
        for folder, folders, files in os.walk(os.path.join(TOP, "crates", name)):
            folders[:] = [inner for inner in folders if inner not in APART]
            paths += [os.path.join(folder, file) for file in files]
    whole = hashlib.sha256()
    for path in sorted(paths):
        with open(path, "rb") as file:
            one = hashlib.sha256(file.read()).hexdigest()
        whole.update(f"{os.path.relpath(path, TOP)} {one}\n".encode())
    return whole.hexdigest()


def is_built(below):
    """Whether the program is built of the sources as they are: by their digest, which is written with it."""
    if not os.access(BUILT, os.X_OK) or not os.path.exists(DIGEST):
        return False
    with open(DIGEST, encoding="ascii") as file:
        return file.read().strip() == digest_of(below)
