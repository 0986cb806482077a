#!/usr/bin/env python3
"""Times programs side by side, by the clock: bench_clock.py files JXLDEC [TURNS] | pictures JXLBENCH CRATE [TURNS]

All programs take turns on one processor, at real-time priority if the system allows it, so that a slow moment of the machine
slows each of them. `files` times whole runs of jxldec and of djxl with one thread over the sixteen files of docs/SPEED.md:
the pictures of scripts/draw_pictures.py, side 512, as cjxl encodes them without loss. It needs cjxl and djxl of libjxl.
`pictures` times decoding alone, of the pictures of scripts/bench_inputs.py, by jxlbench and by CRATE: a program around the
Rust crate, which is not of this repository. Like jxlbench, it takes `bench-decode W H N BITS i16|i32 REPEAT` or
`bench-sections W H N BITS i16|i32 GROUP_DIM REPEAT` and a picture from the standard input, and prints `nanoseconds N` and
a checksum.

A line for each input: its name, the least time of either program over the TURNS (12 unless given), and the median of the
turns' ratios. The last line has the geometric mean of the medians, and the greatest.
"""
import math
import os
import statistics
import subprocess
import sys
import tempfile
import time

HERE = os.path.dirname(os.path.abspath(__file__))
PROCESSOR = max(os.sched_getaffinity(0))
FILES = (
    "alpha_round.pam 3|colours_few.ppm 3|colours_few.ppm 7|colours_gradient.ppm 2|colours_gradient.ppm 3|colours_gradient.ppm 4 -R 1|"
    "colours_letters.ppm 4|colours_letters.ppm 7|colours_shades.ppm 1|colours_shades.ppm 3|colours_shades.ppm 7 -g 0|"
    "colours_shades.ppm 7|colours_shades_16.ppm 4|grey_gradient.pgm 3|grey_letters.pgm 7|grey_shades_16.pgm 7"
).split("|")


def alone():
    """Takes one processor and, if the system allows it, real-time priority."""
    os.sched_setaffinity(0, {PROCESSOR})
    try:
        os.sched_setscheduler(0, os.SCHED_FIFO, os.sched_param(1))
    except PermissionError:
        pass


def whole_run(command):
    """The seconds of a run of a command."""
    start = time.perf_counter()
    subprocess.run(command, check=True, stdout=subprocess.DEVNULL, stderr=subprocess.DEVNULL, preexec_fn=alone)
    return time.perf_counter() - start


def decoding(command, picture):
    """The seconds that a program says decoding took, and the checksum."""
    with open(picture, "rb") as file:
        words = subprocess.run(command, check=True, stdin=file, capture_output=True, text=True, preexec_fn=alone).stdout.split()
    return int(words[1]) / 1e9, words[3]


def turns_of(name, turns, ours, theirs):
    """Prints the line of an input, and returns its median."""
    taken = [(ours(), theirs()) for _ in range(turns)]
    median = statistics.median(a / b for a, b in taken)
    least = [min(times) * 1000 for times in zip(*taken)]
    print(f"{name:40s} {least[0]:9.3f} ms {least[1]:9.3f} ms  {median:.2f}", flush=True)
    return median


def files(folder, jxldec, turns):
    subprocess.run([sys.executable, f"{HERE}/draw_pictures.py", folder, "512"], check=True)
    coded, made = f"{folder}/coded.jxl", f"{folder}/decoded"
    for line in FILES:
        picture, effort, *more = line.split()
        ending = picture.rpartition(".")[2]
        subprocess.run(["cjxl", f"{folder}/{picture}", coded, "-d", "0", "-e", effort, *more, "--quiet"], check=True, stderr=subprocess.DEVNULL)
        ours = [jxldec, coded, "-o", f"{made}.{ending}"]
        theirs = ["djxl", coded, f"{made}2.{ending}", "--num_threads=1", "--quiet"]
        yield turns_of(f"{picture} effort {effort} {' '.join(more)}", turns, lambda: whole_run(ours), lambda: whole_run(theirs))


def pictures(folder, jxlbench, crate, turns):
    subprocess.run([sys.executable, f"{HERE}/bench_inputs.py", folder], check=True)
    for name in sorted(os.listdir(folder)):
        words = ["256", "256", "4" if name.startswith("four-") else "3", "8"]
        kind, last = ("sections", ["64", "1"]) if name.endswith("-cut") else ("decode", ["1"])
        for width in ("i16", "i32"):
            sums = set()

            def timed(command):
                seconds, checksum = decoding(command, f"{folder}/{name}")
                sums.add(checksum)
                return seconds

            ours = [jxlbench, kind, *words, width, *last]
            theirs = [crate, f"bench-{kind}", *words, width, *last]
            yield turns_of(f"{name} {width}", turns, lambda: timed(ours), lambda: timed(theirs))
            if len(sums) > 1:
                sys.exit(f"{name}: the checksums differ")


def main(what, *words):
    count = {"files": 1, "pictures": 2}[what]
    programs = [os.path.abspath(it) for it in words[:count]]
    turns = int(words[count]) if len(words) > count else 12
    with tempfile.TemporaryDirectory() as folder:
        medians = list({"files": files, "pictures": pictures}[what](folder, *programs, turns))
    mean = math.exp(statistics.fmean(math.log(it) for it in medians))
    print(f"geometric mean {mean:.2f}, greatest {max(medians):.2f}")


if __name__ == "__main__":
    main(*sys.argv[1:])
