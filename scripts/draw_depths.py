#!/usr/bin/env python3
"""Draws small pictures of each depth into a folder: draw_depths.py FOLDER

Of each depth from 1 to 16 bits: grey (PGM), red, green and blue (PPM), and both with alpha (PAM). All samples from 0 to the
maximum are equally likely. The same pictures are drawn each time.
"""
import os
import random
import struct
import sys

TYPES = {1: "GRAYSCALE", 2: "GRAYSCALE_ALPHA", 3: "RGB", 4: "RGB_ALPHA"}


def head(channels, width, height, maximum):
    """Returns the header as jxldec writes it, so that files can be compared byte for byte."""
    if channels in (2, 4):
        return f"P7\nWIDTH {width}\nHEIGHT {height}\nDEPTH {channels}\nMAXVAL {maximum}\nTUPLTYPE {TYPES[channels]}\nENDHDR\n"
    return f"P{5 if channels == 1 else 6}\n{width} {height}\n{maximum}\n"


def main():
    for bits in range(1, 17):
        for channels in TYPES:
            rng = random.Random(f"{bits} {channels}")
            maximum, width, height = 2**bits - 1, 5 + bits, 3 + channels
            samples = [rng.randint(0, maximum) for _ in range(width * height * channels)]
            ending = {1: "pgm", 3: "ppm"}.get(channels, "pam")
            with open(os.path.join(sys.argv[1], f"depth_{bits:02}_{channels}.{ending}"), "wb") as file:
                file.write(head(channels, width, height, maximum).encode())
                file.write(struct.pack(f">{len(samples)}{'B' if bits <= 8 else 'H'}", *samples))


if __name__ == "__main__":
    main()
