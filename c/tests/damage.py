"""damage.py SEED COUNT OUT FILE:SAMPLES..: writes damaged copies of files, as cases of fuzz.c, and each file as it is."""
import random
import struct
import sys

random.seed(int(sys.argv[1]))
files = []
for word in sys.argv[4:]:
    path, _, samples = word.rpartition(":")
    with open(path, "rb") as file:
        files.append((file.read(), int(samples)))


def damaged(file):
    it, kind = bytearray(file), random.randrange(6)
    place = random.randrange(len(it))
    if kind == 0:
        return it[:place]
    if kind == 1:
        for _ in range(random.randrange(1, 4)):
            it[random.randrange(len(it))] ^= 1 << random.randrange(8)
    elif kind == 2:
        it[place] = random.randrange(256)
    elif kind == 3:
        it[place : place + random.randrange(1, 9)] = random.randbytes(random.randrange(9))
    elif kind == 4:
        other = random.choice(files)[0]
        return it[:place] + other[min(place, len(other)) :]
    else:
        it[min(len(it) - 1, random.randrange(2, 24))] ^= 1 << random.randrange(8)
    return it


with open(sys.argv[3], "wb") as out:
    cases = list(files)
    for _ in range(int(sys.argv[2])):
        file, samples = random.choice(files)
        cases.append((damaged(file), samples))
    for file, samples in cases:
        out.write(struct.pack(">II", len(file), samples) + file)
