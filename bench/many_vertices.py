#!/usr/bin/env python3
"""Writes a session whose mapfile has the given number of vertices, in features of 1,000 each."""
import sys

count = int(sys.argv[1])
out = sys.stdout
out.write('MAP\nLAYER\nNAME "a"\nTYPE POLYGON\n')
for start in range(0, count, 1000):
    out.write("FEATURE\nPOINTS\n")
    for k in range(start, min(start + 1000, count)):
        out.write(f"{(k * 7919) % 360000 / 1000 - 180:.6f} {(k * 104729) % 180000 / 1000 - 90:.6f}\n")
    out.write("END\nEND\n")
out.write("END\nEND\n%%\n")
