#!/bin/sh
# Counts the instructions that decoding takes, a sample, and encoding: bench.sh PROGRAM FOLDER [SIDE [JXLMOD]]
#
# PROGRAM is jxlbench, built; FOLDER has pictures of scripts/bench_inputs.py, of three channels of SIDE by SIDE samples,
# 256 unless another side is given; of four where their names begin with four-. A run of three decodes is counted and a run of one, and their difference is divided
# by the samples of two decodes. So what comes once in each run falls out: the start, the reading, and the checksum,
# which jxlbench makes once, after all decodes. The Rust crate's column in docs/SPEED.md is the same difference, of a
# program around it that also sums the samples once, after all decodes.
#
# For each picture a line: its name, the instructions a sample at 16 and at 32 bits, and the two checksums. A picture
# whose name ends in -cut is decoded from its sections. It needs valgrind.
#
# Where JXLMOD is given, which is jxlmod, built, a second line follows for each picture of three channels in one part that both widths hold:
# its image is encoded under one leaf, which predicts by the gradient. The line has its name and the word encoded; the
# instructions a sample of encoding it in the first plain format, of decoding what that wrote, and of both in the second
# format, each at 16 and at 32 bits; and the bytes that the first format takes, and the second.
set -eu
program=$1
folder=$2
side=${3:-256}
jxlmod=${4:-}
if [ -n "$jxlmod" ]; then
    made=$(mktemp -d)
    trap 'rm -rf "$made"' EXIT
fi

# The command that a picture is decoded by.
command_of() {
    case $1 in
        *-cut) echo sections ;;
        *) echo decode ;;
    esac
}

# How many channels a picture has.
channels_of() {
    case $(basename "$1") in
        four-*) echo 4 ;;
        *) echo 3 ;;
    esac
}

# The arguments of a command on a file, for samples of this type, so many times.
arguments() {
    words="$2 $side $side $(channels_of "$1") 8 $3"
    case $2 in
        sections*) echo "$words $((side / 4)) $4" ;;
        *) echo "$words $4" ;;
    esac
}

# The instructions of a run on a file.
counted() {
    # The arguments are words of their own.
    # shellcheck disable=SC2046
    valgrind --tool=callgrind --callgrind-out-file=/dev/null "$program" $(arguments "$1" "$2" "$3" "$4") \
        < "$1" 2>&1 > /dev/null | sed -n 's/.*Collected : \([0-9]*\).*/\1/p'
}

# The instructions a sample of a command on a file, at 16 and at 32 bits.
both_widths() {
    for samples in i16 i32; do
        three=$(counted "$1" "$2" "$samples" 3)
        one=$(counted "$1" "$2" "$samples" 1)
        echo "$three $one $side $(channels_of "$1")" | awk '{ printf " %.1f", ($1 - $2) / (2 * $4 * $3 * $3) }'
    done
}

checksum() {
    # shellcheck disable=SC2046
    "$program" $(arguments "$1" "$2" "$3" 1) < "$1" | sed -n 's/^checksum //p'
}

encoded() {
    "$jxlmod" decode "$side" "$side" 3 8 i32 < "$1" > "$made/text"
    "$jxlmod" encode i32 < "$made/text" > "$made/first"
    "$jxlmod" encode2 i32 < "$made/text" > "$made/second"
    line="$(both_widths "$1" encode)$(both_widths "$made/first" decode)"
    line="$line$(both_widths "$1" encode2)$(both_widths "$made/second" decode2)"
    echo "$(basename "$1") encoded$line $(wc -c < "$made/first") $(wc -c < "$made/second")"
}

for picture in "$folder"/*; do
    command=$(command_of "$picture")
    sums="$(checksum "$picture" "$command" i16) $(checksum "$picture" "$command" i32)"
    echo "$(basename "$picture")$(both_widths "$picture" "$command") $sums"
    if [ -n "$jxlmod" ] && [ "$command" = decode ] && [ "$(channels_of "$picture")" = 3 ] \
        && [ "${sums% *}" = "${sums#* }" ]; then
        encoded "$picture"
    fi
done
