#!/usr/bin/env python3
"""Compares docs/MEMORY.md with what is called: scripts/check_docs.sh runs it.

Each public call of the library that the surface test names stands in the document, in backticks; and the number of
requests of each row of its table is that of scripts/alloc/requests, where each call stands in some row.
"""
import glob
import os
import re
import sys

os.chdir(os.path.dirname(os.path.dirname(os.path.abspath(__file__))))
LIBRARY = (
    "jxlm_bits jxlm_kernels jxlm_base jxlm_plain jxlm_weighted jxlm_predictor jxlm_ma_tree jxlm_tree jxlm_transform"
    " jxlm_inverse jxlm_chain jxlm_groups jxlm_samples jxlm_header jxlm_nested jxlm_bit_writer jxlm_encode_write jxlm_encode_tokens"
    " jxlm_encode jxl_modular"
).split()


def text_of(pattern):
    return "\n".join(open(path).read() for path in sorted(glob.glob(pattern, recursive=True)))


def public_calls():
    """The names of the library's public functions, and of the functions of its traits."""
    names = set()
    for crate in LIBRARY:
        code = text_of(f"crates/{crate}/src/**/*.rt")
        if not code:
            sys.exit(f"scripts/check_alloc_docs.py: no code in crates/{crate}/src")
        names |= set(re.findall(r"\bpub (?:const )?fn (\w+)", code))
        for trait in re.findall(r"\npub trait [^\n]*\n(.*?)\n}", code, re.S):
            names |= set(re.findall(r"\n    fn (\w+)", trait))
    return names | {"from", "try_from"}


def main():
    document = open("docs/MEMORY.md").read()
    cited = {word.split("::")[-1] for word in re.findall(r"`([\w:]+)`", document)}
    surface = text_of("crates/check_surface/src/surface/*.rt")
    called = set(re.findall(r"(?:\.|::)(\w+)(?:::<[^>]*>)?\(", surface))
    called |= set(re.findall(r"\bnamed\(\s*(?:.*?::)?(\w+)(?:::<[^;]*>)?,?\s*\);", surface))
    wrong = [f"docs/MEMORY.md: no call {name}" for name in sorted((called & public_calls()) - cited)]

    made = {}
    for line in open("scripts/alloc/requests"):
        _, number, call = line.split()
        made[call] = made.get(call, 0) + int(number)
    stood = set()
    for line in document.split("\n"):
        cells = [cell.strip() for cell in line.split("|")]
        if len(cells) == 6 and re.fullmatch(r"[\d,]+", cells[3]):
            rows = re.findall(r"`([\w.]+)`", cells[2])
            stood |= set(rows)
            number = sum(made.get(row, 0) for row in rows)
            if str(number) != cells[3]:
                wrong.append(f"docs/MEMORY.md: {cells[1]} makes {number} requests, and not {cells[3]}")
    wrong += [f"docs/MEMORY.md: no row for {call}" for call in sorted(set(made) - stood)]
    print("\n".join(wrong) if wrong else "memory: each public call stands in docs/MEMORY.md")
    return 1 if wrong else 0


if __name__ == "__main__":
    sys.exit(main())
