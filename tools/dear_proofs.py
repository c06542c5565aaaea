#!/usr/bin/env python3
"""Lists the dearest parts of the proofs that checks kept in out/. Usage: dear_proofs.py CRATE.. [--lines N]

CRATE is a crate's folder that was checked from nothing with one job. A part is a function's statement (its
steps) or its proof (what the search found), and its time is that from the part before it to its own file by
the clock. With several checks side by side that is more than its time of processor; compare, don't add.
"""
import argparse
import glob
import os


def part_of(path):
    name = os.path.basename(path).removesuffix(".oantt").removeprefix("Rattle-")
    return name.split(".Lts")[0] if ".Lts" in name else name


def parts_of(crate):
    """The seconds and the megabytes of each part of a crate's proofs."""
    files = sorted((os.path.getmtime(it), it) for it in glob.glob(f"{crate}/out/incremental/*/*.oantt"))
    parts = {}
    for (before, _), (after, path) in zip(files, files[1:]):
        seconds, size = parts.get(part_of(path), (0, 0))
        parts[part_of(path)] = (seconds + after - before, size + os.path.getsize(path))
    return parts


def main():
    words = argparse.ArgumentParser(description=__doc__.split("\n")[0])
    words.add_argument("crates", metavar="CRATE", nargs="+")
    words.add_argument("--lines", type=int, default=20)
    words = words.parse_args()
    parts = [(seconds, size, part) for crate in words.crates for part, (seconds, size) in parts_of(crate).items()]
    for seconds, size, part in sorted(parts, reverse=True)[: words.lines]:
        print(f"{seconds:6.1f} s {size / 1e6:6.2f} MB  {part}")


if __name__ == "__main__":
    main()
