#!/usr/bin/env python3
"""Compares the structs of include/jxl_lossless.h with those of the sources: scripts/check_docs.sh runs it.

Each struct that the library for C shares with its callers has in both the same fields, by name, offset and size in bytes, by C's rules for
structs. The constants with the sizes of the structs are their sizes."""
import os
import re
import sys

HEADER = "include/jxl_lossless.h"
# The struct of the header, its file and its name in the sources, and the constant with its size.
STRUCTS = [
    ("jxl_lossless_limits", "crates/jxl_c/src/limits.rt", "CLimits", "LIMITS_SIZE"),
    ("jxl_lossless_info", "crates/jxl_c_picture/src/info.rt", "CInfo", "INFO_SIZE"),
    ("jxl_lossless_channel", "crates/jxl_c_picture/src/channels.rt", "CChannel", None),
]
SIZES = {"uint32_t": 4, "int32_t": 4, "uint64_t": 8, "int64_t": 8, "u32": 4, "i32": 4, "u64": 8, "i64": 8}
SIGNED = {"int32_t", "int64_t", "i32", "i64"}


def text_of(path):
    with open(path, encoding="utf-8") as file:
        return file.read()


def of_header(text, name):
    """The fields of a struct of the header, as names and types in their order."""
    body = re.search(r"typedef struct %s \{(.*?)\} %s;" % (name, name), text, re.S)
    if not body:
        sys.exit(f"{HEADER}: no struct {name}")
    fields = []
    for line in re.sub(r"/\*.*?\*/", "", body.group(1), flags=re.S).split(";"):
        if line.strip():
            kind, names = line.split(None, 1)
            fields += [(field.strip(), kind) for field in names.split(",")]
    return fields


def of_source(path, text, name):
    """The same of a struct of the sources, which has C's layout."""
    body = re.search(r"#\[repr\(C\)\]\n(?:#\[[^\n]*\n)*pub struct %s \{(.*?)\n\}" % name, text, re.S)
    if not body:
        sys.exit(f"{path}: no struct {name} with the layout of C")
    lines = [line.strip() for line in body.group(1).split("\n")]
    fields = []
    for line in lines:
        if line and not line.startswith("//"):
            field = re.fullmatch(r"pub (\w+): (\w+),", line)
            if not field:
                sys.exit(f"{path}: {name}: not a field that C has: {line}")
            fields.append(field.groups())
    return fields


def layout(where, fields):
    """For each field its name, offset, size and whether it has a sign; and the size of all."""
    table, end = [], 0
    for name, kind in fields:
        if kind not in SIZES:
            sys.exit(f"{where}: unknown type {kind}")
        size = SIZES[kind]
        start = -(-end // size) * size
        table.append((name, start, size, kind in SIGNED))
        end = start + size
    most = max(size for _, _, size, _ in table)
    return table, -(-end // most) * most


def main():
    os.chdir(os.path.join(os.path.dirname(os.path.abspath(__file__)), ".."))
    header, bad = text_of(HEADER), False
    for in_header, path, in_source, constant in STRUCTS:
        text = text_of(path)
        (wanted, size) = layout(HEADER, of_header(header, in_header))
        (seen, seen_size) = layout(path, of_source(path, text, in_source))
        for number in range(max(len(wanted), len(seen))):
            first, second = wanted[number:number + 1], seen[number:number + 1]
            if first != second:
                print(f"{path}: {in_source}: field {number} (name, offset, size, sign) is {second}, in {HEADER} {first}")
                bad = True
        if constant:
            value = re.search(r"const %s: u64 = (\d+);" % constant, text)
            if not value or int(value.group(1)) != size or size != seen_size:
                print(f"{path}: {constant} is not {size}, the size of {in_header}")
                bad = True
    sys.exit(1 if bad else 0)


if __name__ == "__main__":
    main()
