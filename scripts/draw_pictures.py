#!/usr/bin/env python3
"""Draws a dozen pictures into a folder: draw_pictures.py FOLDER [SIDE]

They are what lossless coders meet: gradients, noise, few colours, letters, shades with noise, one colour, alpha, and
depths of 8 and 16 bits; and floats of 32 bits, of both signs. SIDE is the longer side, 300 unless another is given; two pictures are narrow. The files are PGM
and PPM, PAM where there is alpha, and PFM for floats. The same pictures are drawn each time.
"""
import math
import os
import random
import struct
import sys


def clamped(value, maximum):
    return max(0, min(maximum, int(value)))


def gradient(x, y, c, maximum, _):
    return (x * (c + 1) + y * 2 + 40 * c) * (maximum + 1) // 256 % (maximum + 1)


def noise(_x, _y, _c, maximum, rng):
    return rng.randint(0, maximum)


def shades(x, y, c, maximum, rng):
    return clamped(maximum * (0.5 + ((x - 90) ** 2 - (y - 60) ** 2) / 90000 + c / 20) + rng.randint(-2, 2), maximum)


def few_colours(x, y, c, maximum, _):
    return (x // 9 * 5 + y // 7 * 3 + x * y // 400) % 5 * (53 + 17 * c) % (maximum + 1)


def letters(x, y, c, maximum, _):
    return maximum if (x % 12 in (2, 3) or y % 14 == 5 and x % 12 < 8) and (x // 12 + y // 14) % 3 else c * 9


def one_colour(_x, _y, c, maximum, _):
    return maximum // (3 + c)


def round_alpha(x, y, c, maximum, rng):
    if c == 3:
        return maximum if (x - 120) ** 2 + (y - 100) ** 2 < 8000 else 0
    return shades(x, y, c, maximum, rng)


def signed_noise(_x, _y, _c, _maximum, rng):
    return rng.uniform(-1, 1)


def waves(x, y, c, _maximum, _):
    return math.sin(x / 9 + c) * math.cos(y / 7)


def signed_few(x, y, c, maximum, rng):
    return few_colours(x, y, c, 255, rng) / 100 - 1


PICTURES = [
    ("grey_gradient", 1, 255, 1, 0.7, gradient),
    ("grey_noise", 1, 255, 1, 0.3, noise),
    ("grey_shades_16", 1, 65535, 1, 0.8, shades),
    ("grey_letters", 1, 255, 1, 0.9, letters),
    ("colours_gradient", 3, 255, 1, 0.6, gradient),
    ("colours_shades", 3, 255, 1, 0.9, shades),
    ("colours_few", 3, 255, 1, 0.8, few_colours),
    ("colours_letters", 3, 255, 1, 0.5, letters),
    ("colours_one", 3, 255, 1, 1.0, one_colour),
    ("colours_shades_16", 3, 65535, 1, 0.4, shades),
    ("alpha_round", 4, 255, 1, 0.7, round_alpha),
    ("narrow", 3, 255, 1, 0.01, shades),
    ("low", 1, 255, 0.02, 1, few_colours),
]

# of floats: name, channels, width and height by the side, value
FLOATS = [
    ("float_grey_noise", 1, 0.4, 0.3, signed_noise),
    ("float_grey_waves", 1, 1, 0.8, waves),
    ("float_noise", 3, 0.3, 0.3, signed_noise),
    ("float_waves", 3, 1, 0.5, waves),
    ("float_few", 3, 0.6, 0.6, signed_few),
    ("float_narrow", 3, 0.01, 1, waves),
]


def head(channels, width, height, maximum):
    if channels == 4:
        return f"P7\nWIDTH {width}\nHEIGHT {height}\nDEPTH 4\nMAXVAL {maximum}\nTUPLTYPE RGB_ALPHA\nENDHDR\n"
    return f"P{5 if channels == 1 else 6}\n{width} {height}\n{maximum}\n"


def main():
    folder = sys.argv[1]
    side = int(sys.argv[2]) if len(sys.argv) > 2 else 300
    for name, channels, maximum, across, down, value in PICTURES:
        rng = random.Random(name)
        width, height = max(1, int(side * across)), max(1, int(side * down))
        samples = [
            value(x, y, c, maximum, rng) for y in range(height) for x in range(width) for c in range(channels)
        ]
        ending = {1: "pgm", 3: "ppm", 4: "pam"}[channels]
        with open(os.path.join(folder, f"{name}.{ending}"), "wb") as file:
            file.write(head(channels, width, height, maximum).encode())
            file.write(struct.pack(f">{len(samples)}{'B' if maximum < 256 else 'H'}", *samples))
    for name, channels, across, down, value in FLOATS:
        rng = random.Random(name)
        width, height = max(1, int(side * across)), max(1, int(side * down))
        samples = [value(x, y, c, 1, rng) for y in range(height) for x in range(width) for c in range(channels)]
        with open(os.path.join(folder, f"{name}.pfm"), "wb") as file:
            file.write(f"P{'f' if channels == 1 else 'F'}\n{width} {height}\n-1.0\n".encode())
            file.write(struct.pack(f"<{len(samples)}f", *samples))


if __name__ == "__main__":
    main()
