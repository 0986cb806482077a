#!/usr/bin/env python3
"""Compares two PFM files, whatever the order of their floats' bytes: same_pfm.py FILE FILE. The status is 1 if they differ."""
import sys


def read(path):
    """Returns the kind, the sides, and the floats' bytes with the least significant byte first."""
    with open(path, "rb") as file:
        kind, sides, scale, floats = file.read().split(b"\n", 3)
    if float(scale) > 0:
        turned = bytearray(len(floats))
        for i in range(4):
            turned[i::4] = floats[3 - i :: 4]
        floats = bytes(turned)
    return kind, sides.split(), abs(float(scale)), floats


sys.exit(read(sys.argv[1]) != read(sys.argv[2]))
