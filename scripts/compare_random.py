#!/usr/bin/env python3
"""Decodes drawn lossless .jxl files with jxldec and with djxl, and compares the samples.

compare_random.py JXLDEC [COUNT] [SEED]

JXLDEC is the program, built. CJXL and DJXL in the environment name encoders and decoders (`cjxl` and `djxl` without
them), each one or several, as `DJXL="djxl djxl11"`; an encoder is drawn for each file. For each of COUNT (300) files a picture is drawn by SEED and
encoded with an effort and options drawn among those that keep every sample. `jxldec` has to give back the picture: PGM, PPM
and PAM byte for byte, of PFM each float, of an animation each picture that `djxl` shows. Where it does not, a line names the
picture, the options, and what each djxl makes of the file; the picture and the file are kept in the folder that KEEP
names. The last line counts the files. The status is 1 if one differs, or is refused although a djxl decodes it.
"""
import os
import random
import struct
import subprocess
import sys
import tempfile
import zlib

# options of cjxl 0.11 that keep each sample, with the values that are drawn
OPTIONS = [
    ("-g", [0, 1, 2, 3]), ("-C", list(range(-1, 42))), ("-P", list(range(16))), ("-I", [0, 1, 10, 50, 100]),
    ("-E", [0, 1, 2, 3, 11]), ("-R", [0, 1]), ("-X", [0, 50, 80, 100]), ("-Y", [0, 50, 80, 100]),
    ("--modular_palette_colors", [0, 1, 2, 16, 256, 1024, 70000]), ("--group_order", [0, 1]), ("--container", [0, 1]),
    ("--patches", [0, 1]), ("--faster_decoding", [0, 1, 2, 3, 4]), ("--compress_boxes", [0, 1]),
]


def colours_of(rng, channels, maximum):
    """Returns a function from a place to samples: one of six kinds of pictures."""
    kind = rng.randrange(6)
    table = [[rng.randint(0, maximum) for _ in range(channels)] for _ in range(rng.choice([2, 3, 9, 40, 300]))]
    levels = [maximum * k // 8 for k in range(1, 8, 2)]
    slopes = [(rng.uniform(-2, 2), rng.uniform(-2, 2), rng.randrange(maximum + 1)) for _ in range(channels)]
    spread = rng.choice([0, 1, 3, maximum // 20])
    if kind == 0:
        return lambda x, y: [rng.randint(0, maximum) for _ in range(channels)]
    if kind == 1:
        return lambda x, y: table[(x // 5 + y // 4 * 3 + x * y // 60) % len(table)]
    if kind == 2:
        return lambda x, y: rng.choice(table)
    if kind == 3:
        return lambda x, y: [rng.choice(levels) for _ in range(channels)]
    return lambda x, y: [
        max(0, min(maximum, int(c + (x * a + y * b) * maximum / 255) + rng.randint(-spread, spread))) for a, b, c in slopes
    ]


def transparent(rng, colours, maximum):
    """The same with alpha: few levels, and colours that stay where it is 0."""
    edge = rng.randint(2, 40)
    levels = rng.choice([[0, maximum], [0, 1, maximum // 2, maximum], list(range(maximum + 1))])

    def sample(x, y):
        outside = (x // edge + y // edge) % 3 == 0
        return colours(x, y) + [0 if outside else rng.choice(levels)]

    return sample


def netpbm(rng, path):
    """Draws a PGM, PPM or PAM file of 1 to 16 bits."""
    width, height = rng.randint(1, 90), rng.randint(1, 90)
    channels, alpha = rng.choice([1, 3]), rng.random() < 0.4
    maximum = 2 ** rng.choice([8, 8, 8, 16, rng.randint(1, 16)]) - 1
    sample = colours_of(rng, channels, maximum)
    if alpha:
        sample = transparent(rng, sample, maximum)
    values = [v for y in range(height) for x in range(width) for v in sample(x, y)]
    kind = "pam" if alpha else "pgm" if channels == 1 else "ppm"
    heads = {
        "pgm": f"P5\n{width} {height}\n{maximum}\n",
        "ppm": f"P6\n{width} {height}\n{maximum}\n",
        "pam": f"P7\nWIDTH {width}\nHEIGHT {height}\nDEPTH {channels + 1}\nMAXVAL {maximum}\nTUPLTYPE "
        + ("RGB_ALPHA" if channels == 3 else "GRAYSCALE_ALPHA") + "\nENDHDR\n",
    }
    body = bytes(values) if maximum < 256 else struct.pack(f">{len(values)}H", *values)
    return written(f"{path}.{kind}", heads[kind].encode() + body)


def floats(rng, path):
    """Draws a PFM file of both signs."""
    width, height, channels = rng.randint(1, 60), rng.randint(1, 60), rng.choice([1, 3])
    table = [rng.uniform(-2, 2) for _ in range(rng.choice([1, 3, 20, 5000]))]
    kind = rng.randrange(3)
    values = []
    for at in range(width * height * channels):
        smooth = (at % (width * channels)) / 50 - at / (width * height * channels)
        values.append(smooth if kind == 0 else rng.choice(table) if kind == 1 else rng.uniform(-1, 1) * 2.0 ** rng.randint(-9, 9))
    head = f"{'PF' if channels == 3 else 'Pf'}\n{width} {height}\n-1.0\n".encode()
    return written(f"{path}.pfm", head + struct.pack(f"<{len(values)}f", *values))


def chunk(name, data):
    return struct.pack(">I", len(data)) + name + data + struct.pack(">I", zlib.crc32(name + data))


def animation(rng, path):
    """Draws an APNG file with soft alpha, places, and both ways to blend and two to dispose (cjxl takes no lower frames)."""
    width, height, frames = rng.randint(2, 40), rng.randint(2, 40), rng.randint(2, 6)
    low = rng.random() < 0.3
    data = b"\x89PNG\r\n\x1a\n" + chunk(b"IHDR", struct.pack(">IIBBBBB", width, height, 8, 6, 0, 0, 0))
    data += chunk(b"acTL", struct.pack(">II", frames, 0))
    count = 0
    for number in range(frames):
        w, h = (width, height) if number == 0 else (rng.randint(1, width), rng.randint(1, height) if low else height)
        x, y = rng.randint(0, width - w), rng.randint(0, height - h)
        sample = transparent(rng, colours_of(rng, 3, 255), 255)
        rows = b"".join(b"\0" + bytes(v for i in range(w) for v in sample(i, j)) for j in range(h))
        control = struct.pack(">IIIIIHHBB", count, w, h, x, y, 1, 10, rng.randrange(2), rng.randrange(2))
        data += chunk(b"fcTL", control)
        body = zlib.compress(rows)
        data += chunk(b"IDAT", body) if number == 0 else chunk(b"fdAT", struct.pack(">I", count + 1) + body)
        count += 1 if number == 0 else 2
    return written(f"{path}.png", data + chunk(b"IEND", b""))


def written(path, data):
    with open(path, "wb") as file:
        file.write(data)
    return path


def read(path):
    with open(path, "rb") as file:
        return file.read()


def picture_in(path):
    """Returns what a PGM, PPM, PAM or PFM file holds; of PFM the floats with the least significant byte first."""
    data = read(path)
    if data[:2] not in (b"PF", b"Pf"):
        return data
    kind, sides, scale, body = data.split(b"\n", 3)
    if float(scale) > 0:
        turned = bytearray(len(body))
        for i in range(4):
            turned[i::4] = body[3 - i :: 4]
        body = bytes(turned)
    return kind, sides.split(), body


def run(words):
    """Runs a command; returns none where it ends well, else the last line that it prints."""
    ran = subprocess.run(words, stdout=subprocess.PIPE, stderr=subprocess.STDOUT, timeout=300, check=False)
    lines = ran.stdout.decode(errors="replace").strip().splitlines()
    return None if ran.returncode == 0 else (lines or ["no message"])[-1]


def shown(folder, program, file, ending):
    """Returns the pictures that a djxl makes of a file, or why it makes none."""
    for old in os.listdir(folder):
        os.remove(f"{folder}/{old}")
    failed = run([program, file, f"{folder}/out.{ending}", "--quiet"])
    if failed:
        return failed
    return [picture_in(f"{folder}/{it}") for it in sorted(os.listdir(folder), key=lambda it: (len(it), it))]


def ours(folder, program, file, ending, frames):
    """The same of jxldec."""
    for old in os.listdir(folder):
        os.remove(f"{folder}/{old}")
    words = ["--frames", f"{folder}/out-%d.{ending}"] if frames else ["-o", f"{folder}/out.{ending}"]
    failed = run([program, file, *words])
    if failed:
        return failed
    return [picture_in(f"{folder}/{it}") for it in sorted(os.listdir(folder), key=lambda it: (len(it), it))]


def options(rng):
    words = ["-e", str(rng.choice([1, 2, 3, 4, 5, 6, 7, 7, 8, 9]))]
    for name, values in rng.sample(OPTIONS, rng.randint(0, 4)):
        value = str(rng.choice(values))
        words += [f"{name}={value}"] if name.startswith("--") else [name, value]
    return words


def verdict(got, wanted, judges):
    """Returns `same`, `refused` or `different`: by the picture, and where that is not kept by the decoders."""
    if got == wanted or got in judges.values():
        return "same"
    if isinstance(got, str):
        return "refused by all" if all(isinstance(it, str) for it in judges.values()) else "refused"
    return "different"


def judge(rng, program, encoders, decoders, folder, number):
    """Judges one file; returns the verdict."""
    draw = rng.choices([netpbm, floats, animation], [7, 2, 2])[0]
    picture = draw(rng, f"{folder}/picture")
    frames = draw is animation
    ending = "pam" if frames else picture.rsplit(".", 1)[1]
    words, file, out = options(rng), f"{folder}/a.jxl", f"{folder}/out"
    failed = run([rng.choice(encoders), picture, file, "-d", "0", "--quiet", *words])
    if failed:
        return "not encoded"
    wanted = None if frames else [picture_in(picture)]
    got = ours(out, program, file, ending, frames)
    if got == wanted:
        return "same"
    judges = {it: shown(out, it, file, ending) for it in decoders}
    result = verdict(got, wanted, judges)
    if result != "same":
        said = [got if isinstance(got, str) else "jxldec: other samples"]
        for name, made in judges.items():
            said.append(f"{name}: {made if isinstance(made, str) else 'the picture' if made == wanted else 'decoded'}")
        print(f"{number} {os.path.basename(picture)} {' '.join(words)}: {'; '.join(said)}", flush=True)
        if os.environ.get("KEEP"):
            os.makedirs(os.environ["KEEP"], exist_ok=True)
            for it in (picture, file):
                written(f"{os.environ['KEEP']}/{number}.{it.rsplit('.', 1)[1]}", read(it))
    return result


def main(program, count="300", seed="1"):
    encoders, decoders = (os.environ.get(it, it.lower()).split() for it in ("CJXL", "DJXL"))
    counts = {}
    with tempfile.TemporaryDirectory() as folder:
        os.mkdir(f"{folder}/out")
        for number in range(int(count)):
            rng = random.Random(f"{seed} {number}")
            result = judge(rng, program, encoders, decoders, folder, number)
            counts[result] = counts.get(result, 0) + 1
    print("files: " + ", ".join(f"{number} {name}" for name, number in sorted(counts.items())))
    return 1 if counts.get("different") or counts.get("refused") else 0


if __name__ == "__main__":
    sys.exit(main(*sys.argv[1:]))
