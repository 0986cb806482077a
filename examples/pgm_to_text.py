"""Draws a picture in the terminal: PGM of one byte a sample, from standard input. The darker, the denser."""
import re
import sys

data = sys.stdin.buffer.read()
head = re.match(rb"P5\s+(\d+)\s+(\d+)\s+(\d+)\s", data)
if head is None:
    sys.exit("no picture: " + data.decode("utf-8", "replace").strip())
width, height, most = (int(number) for number in head.groups())
shades = "@%#*+=-:. "
for y in range(height):
    row = data[head.end() + y * width : head.end() + (y + 1) * width]
    print("".join(shades[v * len(shades) // (most + 1)] for v in row).rstrip())
