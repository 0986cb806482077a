#!/usr/bin/env python3
"""Writes the pictures by which docs/SPEED.md counts: bench_inputs.py FOLDER [SIDE]

Each has three channels of SIDE by SIDE samples, 256 unless another side is given, of bit depth 8, in the format of
docs/FORMAT.md; those whose names begin with four- have four. Tokens take 8 bits; small ones are the most frequent, and they are the same at each call. Those whose
names end in -cut are cut into 16 groups, whose side is a quarter of SIDE, which is then a power of two.
"""
import math
import pathlib
import random
import sys

GRADIENT, ZERO, WEST, SELECT, WEIGHTED = 5, 0, 1, 4, 6
COLOUR = [(2, 0), (2, 0), (3, 0), (2, 0)]  # channels 0 to 2, type 6
PALETTE = [(2, 1), (2, 0), (3, 0), (2, 1), (2, 1), (10, 0), (2, 0), (4, 0)]  # 256 colours of channels 0 to 2, no deltas
SQUEEZE = [(2, 2), (2, 0)]  # the default steps


def signed(number):
    return 2 * number if number >= 0 else -2 * number - 1


def header(*transforms):
    """The fields of a header, each a width and a number: a tree of its own, default weights, these transforms."""
    count = len(transforms)
    fields = [(1, 0), (1, 1), (2, min(count, 2))] + ([(4, count - 2)] if count > 1 else [])
    return fields + [field for transform in transforms for field in transform]


def leaf(predictor, cluster=0, offset=0):
    return predictor, cluster, offset


def tree(root, runs=0, clusters=1, constant=None):
    """The fields of a tree, and then of its leaves' decoder. A decision is its property, its value, left and right."""
    fields = [(2, 0), (4, 3)] + [(4, cluster) for cluster in (0, 1, 2, 0, 3, 3)]
    fields += [(1, 0), (6, 11), (1, 0), (6, 5), (1, 0), (6, 4), (1, 1), (6, 0)]
    leaves, row = [], [root]
    while row:
        for node in row:
            if len(node) == 3:
                fields += [(5, 0), (4, node[0]), (11, signed(node[2]))]
                leaves.append(node)
            else:
                fields += [(5, node[0] + 1), (11, signed(node[1]))]
        row = [child for node in row if len(node) == 4 for child in node[2:]]
    fields += [(1, runs), (1, 0), (4, clusters - 1)] + [(4, node[1]) for node in leaves]
    code = [(1, 0), (6, 8)] if constant is None else [(1, 1), (6, 8), (8, constant)]
    return fields + clusters * code


def halving(properties, reach, leaves):
    """A full tree over an iterator of leaves. Each row of decisions halves the range of one property."""
    if not properties:
        return next(leaves)
    first, rest = properties[0], properties[1:]
    low, high = reach[first]
    middle = (low + high) // 2
    left = halving(rest, {**reach, first: (middle, high)}, leaves)
    return first, middle, left, halving(rest, {**reach, first: (low, middle)}, leaves)


def grown(source, decisions, depth):
    """A drawn tree of so many decisions on properties 2 to 15, so deep. Each cuts what is left of its property's range."""

    def end():
        return leaf(source.choice((0, 1, 2, 3, 4, 5, 6, 11)), 0, source.randrange(-8, 8))

    root = [end(), 0, {}]
    open_nodes = [root]
    for i in range(decisions):
        node = open_nodes.pop(-1 if i < depth else source.randrange(len(open_nodes)))
        name, (low, high) = 0, (0, 0)
        while high - low < 2:
            name = source.randrange(2, 16)
            low, high = node[2].get(name, (0, 255) if name in (2, 3) else (-500, 500))
        cut = source.randrange(low, high)
        sides = []
        for reach in ((cut + 1, high), (low, cut)):
            sides.append([end(), node[1] + 1, {**node[2], name: reach}])
        node[0] = [name, cut, *sides]
        open_nodes += [side for side in sides if side[1] < depth]

    def whole(node):
        if isinstance(node[0], tuple):
            return node[0]
        name, cut, left, right = node[0]
        return name, cut, whole(left), whole(right)

    return whole(root)


def around_zero(**reach):
    return {int(name[1:]): (-bound, bound) for name, bound in reach.items()}


def packed(fields, data=b""):
    """The bytes of the fields, the first bit the least significant, and then of the data, with no gap between."""
    number, length = 0, 0
    for width, value in fields:
        number |= value << length
        length += width
    number |= int.from_bytes(data, "little") << length
    return number.to_bytes((length + 7) // 8 + len(data), "little")


def in_runs(random_source, tokens, samples):
    """Fields for so many samples: three in four are a token, one in four a run of one to eight samples."""
    tokens, made = iter(tokens), 0
    while made < samples:
        if random_source.random() < 0.25:
            count = 1 + random_source.randrange(8)
            yield 9, 1 | (count - 1) << 1
            made += count
        else:
            yield 9, next(tokens) << 1
            made += 1


def joined(fields):
    """The bytes of many fields of 9 bits."""
    text = "".join(format(value, "09b") for _, value in reversed(fields))
    return int(text, 2).to_bytes((len(text) + 7) // 8, "little")


def cut(side, fields, tokens):
    """The sections of a picture: these fields, and then for each group the same fields and its tokens."""
    group = side // 4
    sections = [packed(fields)]
    for place in range(16):
        top, left = place // 4 * group, place % 4 * group
        rows = [(channel * side + top + y) * side + left for channel in range(3) for y in range(group)]
        sections.append(packed(fields, b"".join(tokens[start : start + group] for start in rows)))
    return b"".join(len(section).to_bytes(4, "little") + section for section in sections)


def pictures(side):
    source = random.Random(1)
    samples = 3 * side * side
    sizes = bytes(min(255, int(-8 * math.log((byte + 0.5) / 256))) for byte in range(256))
    tokens = source.randbytes(samples + 16).translate(sizes)
    four = tokens + random.Random(3).randbytes(side * side).translate(sizes)
    weighted = [leaf(WEIGHTED, i % 4, i % 3 - 1) for i in range(32)]
    mixed = [leaf(p, i % 4) for i, p in enumerate((1, 2, 3, 4, 5, 7, 8, 9, 10, 11, 12, 13, 5, 4, 3, 5))]
    errors, earlier = around_zero(p15=128, p9=512), around_zero(p17=128, p10=32, p6=256, p14=32)
    fused, tables = (15, 9, 15, 9, 15), (15, 15, 15, 9, 9)
    west, gradient = ([leaf(predictor, i % 4) for i in range(8)] for predictor in (WEST, GRADIENT))
    on_west, on_gradient = (halving(3 * (p,), {p: (-64, 64)}, iter(row)) for p, row in ((10, west), (9, gradient)))
    alone = halving((9, 10, 6), around_zero(p9=64, p10=64, p6=64), iter(mixed))
    for_last = (0, 2, halving(tables, errors, iter(weighted)), alone)
    by_channel = (0, 0, (0, 1, leaf(SELECT), leaf(WEST, 1, 1)), alone)
    one = tree(leaf(GRADIENT))
    zero = tree(leaf(ZERO))
    yield "gradient", packed(header() + one, tokens)
    yield "runs", packed(header() + tree(leaf(GRADIENT), runs=1), joined(list(in_runs(source, tokens, samples))))
    yield "squeeze", packed(header(COLOUR, SQUEEZE) + zero, tokens)
    yield "earlier", packed(header() + tree(halving((17, 10, 6, 14), earlier, iter(mixed)), clusters=4), tokens)
    yield "weighted", packed(header() + tree(halving(tables, errors, iter(weighted)), clusters=4), tokens)
    yield "weighted-turns", packed(header() + tree(halving(fused, errors, iter(weighted)), clusters=4), tokens)
    yield "zero", packed(header() + zero, tokens)
    yield "fill", packed(header() + tree(leaf(ZERO), constant=6))
    yield "clusters", packed(header() + tree(on_west, clusters=4), tokens)
    yield "gradient-clusters", packed(header() + tree(on_gradient, clusters=4), tokens)
    yield "gradient-cut", cut(side, header() + one, tokens)
    yield "zero-cut", cut(side, header() + zero, tokens)
    yield "palette", packed(header(PALETTE) + zero, bytes(token & 254 for token in tokens))
    yield "select", packed(header() + tree(leaf(SELECT)), tokens)
    yield "self-correcting", packed(header() + tree(leaf(WEIGHTED)), tokens)
    yield "four-one-weighted", packed(header() + tree(for_last, clusters=4), four)
    yield "by-channel", packed(header() + tree(by_channel, clusters=4), tokens)
    yield "large", packed(header() + tree(grown(random.Random(2), 6282, 37)), tokens)


def main():
    folder = pathlib.Path(sys.argv[1])
    folder.mkdir(parents=True, exist_ok=True)
    for name, data in pictures(int(sys.argv[2]) if len(sys.argv) > 2 else 256):
        (folder / name).write_bytes(data)


main()
