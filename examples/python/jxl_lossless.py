"""Lossless JPEG XL pictures as arrays: `read(path)`, `decode(file)`, `pixels(file)`, `info(file)`, `profile(file)`, and
`encode(info, extra, samples, profile)`, which makes a file.

It loads libjxl_lossless.so from beside this file, from the path in JXL_LOSSLESS_SO, or by its name. With numpy, samples
are an int32 array and pixels a uint8 or uint16 array; without it an `array.array`. Calls release the interpreter's lock, so
threads decode side by side.

    python3 jxl_lossless.py FILE.jxl           prints what the headers say
    python3 jxl_lossless.py FILE.jxl OUT.jxl   and encodes its picture again
"""
import array
import ctypes as c
import os
import sys

try:
    import numpy
except ImportError:
    numpy = None

COLOUR, ALPHA = 256, 0
FAST, USUAL, BEST = 0, 1, 2
_DONE, _NO_MEMORY, _NO_ROOM, _MESSAGE = 0, 6, 9, 128


class Limits(c.Structure):
    _fields_ = (
        [(it, c.c_uint64) for it in "size pixels bytes profile".split()]
        + [(it, c.c_uint32) for it in "channels decisions".split()]
        + [("codewords", c.c_uint64)]
    )


class Info(c.Structure):
    _fields_ = (
        [("size", c.c_uint64)]
        + [
            (it, c.c_uint32)
            for it in "width height colours extra bits exponent_bits alpha space white primaries transfer gamma intent interleaved".split()
        ]
        + [("profile", c.c_uint64), ("samples", c.c_uint64)]
    )


class Channel(c.Structure):
    _fields_ = [("first", c.c_uint64)] + [
        (it, c.c_uint32) for it in "kind width height shift bits exponent_bits associated reserved".split()
    ]


class JxlError(ValueError):
    """Why a call fails: `status` is one of the header's numbers, and the text says more."""

    def __init__(self, status, text):
        super().__init__(text)
        self.status = status


def _library():
    beside = os.path.join(os.path.dirname(os.path.abspath(__file__)), "libjxl_lossless.so")
    named = os.environ.get("JXL_LOSSLESS_SO")
    return c.CDLL(named or (beside if os.path.exists(beside) else "libjxl_lossless.so.0"))


_so = _library()
_text, _size = c.c_char_p, c.c_size_t
for _name, _out in (
    ("read_info", [c.POINTER(Info)]),
    ("channels", [c.POINTER(Channel), _size]),
    ("profile", [c.c_void_p, _size]),
    ("decode", [c.c_void_p, _size]),
    ("decode_8", [c.c_void_p, _size]),
    ("decode_16", [c.c_void_p, _size]),
):
    _call = getattr(_so, "jxl_lossless_" + _name)
    _call.argtypes, _call.restype = [_text, _size, c.POINTER(Limits), *_out, _text, _size], c.c_uint32
_so.jxl_lossless_encode.argtypes = [c.POINTER(Info), c.POINTER(Channel), _size, c.c_void_p, _size, _text, _size, c.c_uint32]
_so.jxl_lossless_encode.argtypes += [c.c_void_p, _size, c.POINTER(_size), _text, _size]
_so.jxl_lossless_encode.restype = c.c_uint32
_so.jxl_lossless_usual_limits.argtypes, _so.jxl_lossless_usual_limits.restype = [c.POINTER(Limits)], c.c_uint32


def usual_limits():
    limits = Limits(size=c.sizeof(Limits))
    _so.jxl_lossless_usual_limits(limits)
    return limits


def _run(name, file, limits, *out):
    why = c.create_string_buffer(_MESSAGE)
    status = getattr(_so, "jxl_lossless_" + name)(file, len(file), limits or usual_limits(), *out, why, len(why))
    _raise_unless_done(status, why)


def _raise_unless_done(status, why):
    if status == _NO_MEMORY:
        raise MemoryError(why.value.decode())
    if status != _DONE:
        raise JxlError(status, why.value.decode())


def _array(code, count):
    """An array of so many numbers, and where they are."""
    if numpy is not None:
        numbers = numpy.empty(count, {"i": numpy.int32, "H": numpy.uint16, "B": numpy.uint8}[code])
        return numbers, numbers.ctypes.data
    numbers = array.array(code, bytes(count * array.array(code).itemsize))
    return numbers, numbers.buffer_info()[0]


def info(file, limits=None):
    """What the headers of a file say, by the names of the struct `jxl_lossless_info`."""
    it = Info(size=c.sizeof(Info))
    _run("read_info", file, limits, it)
    return it


def channels(file, limits=None):
    """The channels of a file, as a list of `Channel`."""
    it = info(file, limits)
    found = (Channel * (it.colours + it.extra))()
    _run("channels", file, limits, found, len(found))
    return list(found)


def profile(file, limits=None):
    """The ICC profile of a file, or b""."""
    size = info(file, limits).profile
    icc = c.create_string_buffer(max(1, size))
    _run("profile", file, limits, icc, size)
    return icc.raw[:size]


def decode(file, limits=None):
    """The samples of each channel, and what the headers say: with numpy a list of arrays of (height, width)."""
    it = info(file, limits)
    samples, place = _array("i", it.samples)
    _run("decode", file, limits, place, it.samples)
    parts = []
    for channel in channels(file, limits):
        part = samples[channel.first : channel.first + channel.width * channel.height]
        parts.append(part.reshape(channel.height, channel.width) if numpy is not None else part)
    return parts, it


def pixels(file, bits=8, limits=None):
    """The pixels, with numbers of 8 or 16 bits, and what the headers say: with numpy an array of (height, width, n)."""
    it = info(file, limits)
    count = it.width * it.height * it.interleaved
    numbers, place = _array("B" if bits == 8 else "H", count)
    _run("decode_%d" % bits, file, limits, place, count * bits // 8)
    if numpy is not None:
        numbers = numbers.reshape(it.height, it.width, it.interleaved)
    return numbers, it


def read(path, limits=None):
    """As `decode`, of the file with this path."""
    with open(path, "rb") as file:
        return decode(file.read(), limits)


def _samples_of(parts):
    """The samples of all parts, one after another, where they are, and how many they are."""
    if numpy is not None:
        numbers = numpy.concatenate([numpy.ascontiguousarray(it, numpy.int32).ravel() for it in parts])
        return numbers, numbers.ctypes.data, len(numbers)
    numbers = array.array("i")
    for it in parts:
        numbers.extend(it)
    return numbers, numbers.buffer_info()[0], len(numbers)


def described(width, height, colours=3, bits=8):
    """What `encode` is told of a picture of sRGB colours, or of grey ones: whole numbers of this depth, no profile."""
    grey = colours == 1
    return Info(size=c.sizeof(Info), width=width, height=height, colours=colours, bits=bits, space=1 if grey else 0,
                white=1, primaries=1, transfer=13, intent=1)


def encode(it, parts, extra=(), icc=b"", effort=USUAL):
    """A file of a picture: what `info` says of it, the samples of each channel, and its extra channels as `channels`
    describes them."""
    samples, place, count = _samples_of(parts)
    list_of = (Channel * len(extra))(*extra)
    why, needed, size = c.create_string_buffer(_MESSAGE), _size(), 2 * count + 1000
    while True:
        file = c.create_string_buffer(size)
        status = _so.jxl_lossless_encode(it, list_of, len(extra), place, count, icc, len(icc), effort, file, size, needed, why, len(why))
        if status != _NO_ROOM:
            break
        size = needed.value
    _raise_unless_done(status, why)
    return file.raw[: needed.value]


def main():
    with open(sys.argv[1], "rb") as file:
        content = file.read()
    it = info(content)
    print(" ".join("%s=%d" % (name, getattr(it, name)) for name, _ in Info._fields_))
    found = channels(content)
    for channel in found:
        print(" ".join("%s=%d" % (name, getattr(channel, name)) for name, _ in Channel._fields_))
    if len(sys.argv) > 2:
        made = encode(it, decode(content)[0], found[it.colours :], profile(content))
        with open(sys.argv[2], "wb") as file:
            file.write(made)


if __name__ == "__main__":
    main()
