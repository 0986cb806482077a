#!/usr/bin/env python3
"""Proves and builds a program of this repository: `python3 scripts/build.py jxldec`.

`rt all check` proves the program and the libraries below it, on all processors that memory allows, and `rt run` links the program and
runs it once, with the arguments that follow its name. Both work in a copy of these crates alone, since `rt all` takes every crate that
a crates.txt lists. What they proved stays in crates/NAME/out, so that the next call proves only what has changed.
"""
import os
import shutil
import subprocess
import sys
import tempfile
import time

ROOT = os.path.dirname(os.path.dirname(os.path.abspath(__file__)))
# The memory of a check, at most.
MEMORY = 4 << 30


def libraries():
    """Returns the libraries that each crate uses, as crates.txt lists them."""
    uses = {}
    with open(f"{ROOT}/crates.txt", encoding="utf-8") as file:
        for line in file:
            name, colon, rest = line.partition("#")[0].partition(":")
            if colon:
                uses[name.split()[0]] = rest.split()
    return uses


def all_below(uses, name):
    """Returns a crate and the crates below it, lowest first."""
    found = []
    for below in uses[name]:
        if below in uses:
            found += [it for it in all_below(uses, below) if it not in found]
    return [*found, name]


def processors():
    """Returns how many checks run side by side: one a processor, as far as memory allows."""
    with open("/proc/meminfo", encoding="ascii") as file:
        free = next(1024 * int(it.split()[1]) for it in file if it.startswith("MemAvailable"))
    return max(1, min(len(os.sched_getaffinity(0)), free // MEMORY))


def lay_out(uses, names, room):
    """Copies these crates to a folder; what earlier runs proved moves there."""
    for name in names:
        own, copy = f"{ROOT}/crates/{name}", f"{room}/crates/{name}"
        os.makedirs(copy, exist_ok=True)
        for part in os.listdir(copy):
            if part != "out":
                shutil.rmtree(f"{copy}/{part}") if os.path.isdir(f"{copy}/{part}") else os.remove(f"{copy}/{part}")
        for part in os.listdir(own):
            if part == "out":
                if not os.path.isdir(f"{copy}/out"):
                    shutil.move(f"{own}/out", copy)
            elif os.path.isdir(f"{own}/{part}"):
                shutil.copytree(f"{own}/{part}", f"{copy}/{part}")
            else:
                shutil.copy(f"{own}/{part}", copy)
    shutil.copy(f"{ROOT}/HANDLES", room)
    with open(f"{room}/crates.txt", "w", encoding="utf-8") as file:
        file.writelines(f"{name}: {' '.join(uses[name])}\n" for name in names)


def give_back(names, room):
    """Moves what was proved back to the repository's crates."""
    for name in names:
        if os.path.isdir(f"{room}/crates/{name}/out"):
            shutil.rmtree(f"{ROOT}/crates/{name}/out", ignore_errors=True)
            shutil.move(f"{room}/crates/{name}/out", f"{ROOT}/crates/{name}")
    shutil.rmtree(room)


def prove(room):
    """Proves all crates of a folder, prints a line for each, and returns whether all are proved."""
    began, said = time.time(), []
    command = ["rt", "all", "check", "--jobs", str(processors())]
    with subprocess.Popen(command, cwd=room, stdout=subprocess.PIPE, stderr=subprocess.STDOUT, text=True, errors="replace") as ran:
        for line in ran.stdout:
            said.append(line)
            if line.startswith("== "):
                print(f"{time.time() - began:5.0f} s {line[3:].strip()}", flush=True)
    if ran.returncode:
        print("".join(said[-60:]), file=sys.stderr)
    return ran.returncode == 0


def main(words):
    uses = libraries()
    if not words or words[0] not in uses:
        sys.exit(__doc__)
    name, *arguments = words
    names = all_below(uses, name)
    print(f"{name}: {len(names)} crates to prove, but those that crates/NAME/out has proved; the time at which each is done", flush=True)
    room = f"{ROOT}/.git" if os.path.isdir(f"{ROOT}/.git") else tempfile.gettempdir()
    room = f"{room}/build-{name}"
    lay_out(uses, names, room)
    try:
        if not prove(room):
            return 1
        given = f"{room}/crates/{name}/stdin"
        with open(given if os.path.isfile(given) else os.devnull, "rb") as stdin:
            command = ["rt", "run", "--", *arguments]
            ran = subprocess.run(command, cwd=f"{room}/crates/{name}", stdin=stdin, stderr=subprocess.PIPE, check=False)
    finally:
        give_back(names, room)
    if ran.returncode:
        print(ran.stderr.decode(errors="replace")[-4000:], file=sys.stderr)
    else:
        print(f"crates/{name}/out/{name}")
    return ran.returncode


if __name__ == "__main__":
    sys.exit(main(sys.argv[1:]))
