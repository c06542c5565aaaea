#!/usr/bin/env python3
"""Draws 400 features of 5,000 vertices each, 50 times over, within 256 MB of address space.

The edges of these features take 64 MB a picture. A program that keeps them answers NOMEMORY after a few
pictures, and this script fails. Usage: memory_is_given_back.py PROGRAM
"""
import resource
import subprocess
import sys

PICTURES = 50
BYTES = 256 * 1024 * 1024
QUERY = (
    "QUERY VERSION=1.3.0&REQUEST=GetMap&LAYERS=a&STYLES=&CRS=CRS:84"
    "&BBOX=-180,-90,180,90&WIDTH=8&HEIGHT=4&FORMAT=image/x-portable-pixmap\n"
)


def mapfile():
    yield 'MAP\nLAYER\nNAME "a"\nTYPE POLYGON\nCLASS\nSTYLE\nCOLOR 10 20 30\nEND\nEND\n'
    for feature in range(400):
        yield "FEATURE\nPOINTS\n"
        for k in range(5000):
            x = (feature * 7919 + k * 104729) % 360_000 / 1000 - 180
            y = (feature * 104729 + k * 7919) % 180_000 / 1000 - 90
            yield f"{x:.3f} {y:.3f}\n"
        yield "END\nEND\n"
    yield "END\nEND\n%%\n"


def main():
    session = "".join(mapfile()) + QUERY * PICTURES
    run = subprocess.run(
        [sys.argv[1]],
        input=session.encode(),
        stdout=subprocess.PIPE,
        preexec_fn=lambda: resource.setrlimit(resource.RLIMIT_AS, (BYTES, BYTES)),
    )
    answers = run.stdout.decode().split("ANSWER ")[1:]
    if run.returncode != 0 or len(answers) != PICTURES or len(set(answers)) != 1:
        sys.exit(f"failed: status {run.returncode}, {len(answers)} answers, {len(set(answers))} different ones")
    peak = resource.getrusage(resource.RUSAGE_CHILDREN).ru_maxrss // 1024
    print(f"ok: {PICTURES} equal pictures, at most {peak} MB")


main()
