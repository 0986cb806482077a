#!/bin/sh
# Decodes lossless .jxl files beside djxl, and compares what both write, byte for byte; of PFM, where djxl writes
# the bytes of a float in the other order, the header's numbers and the floats: compare_djxl.sh PROGRAM [SIDE]
#
# PROGRAM is jxldec, built. The files are those that cjxl makes of the pictures of scripts/draw_pictures.py, at each effort
# from 1 to 9 and by other ways to code. A line tells each file that differs or is refused, with the reason; the last line
# counts them. The status is 1 where one differs. It needs cjxl and djxl of libjxl, which are not of this repository: CJXL and
# DJXL name them, each one or several, as DJXL="djxl djxl11". A file that one djxl does not decode is compared with the others.
set -eu
program=$1
side=${2:-300}
here=$(dirname "$0")
folder=$(mktemp -d)
trap 'rm -rf "$folder"' EXIT
mkdir "$folder/in"
python3 "$here/draw_pictures.py" "$folder/in" "$side"
same=0
refused=0
different=0

# Whether two files hold one picture.
alike() {
    case $1 in
        *.pfm) python3 "$here/same_pfm.py" "$1" "$2" ;;
        *) cmp -s "$1" "$2" ;;
    esac
}

# Compares what jxldec made of a file, if anything, with what this djxl makes: judge_beside DJXL NAME.
judge_beside() {
    "$1" "$folder/a.jxl" "$folder/wanted.$ending" --quiet > "$folder/theirs" 2>&1 || return 0
    if [ ! -f "$folder/ours.$ending" ]; then
        refused=$((refused + 1))
        echo "$2: $(sed "s/.*a.jxl: //" "$folder/said")"
    elif alike "$folder/ours.$ending" "$folder/wanted.$ending"; then
        same=$((same + 1))
    else
        different=$((different + 1))
        echo "$2: other bytes than $(basename "$1")"
    fi
}

# Judges the file that each cjxl makes of this picture by these options.
judge() {
    picture=$1
    shift
    ending=${picture##*.}
    for cjxl in ${CJXL:-cjxl}; do
        rm -f "$folder"/ours.* "$folder"/wanted.*
        "$cjxl" "$picture" "$folder/a.jxl" -d 0 --quiet "$@" > "$folder/theirs" 2>&1 || continue
        "$program" "$folder/a.jxl" -o "$folder/ours.$ending" 2> "$folder/said" || rm -f "$folder/ours.$ending"
        for djxl in ${DJXL:-djxl}; do
            judge_beside "$djxl" "$(basename "$picture") $(basename "$cjxl") $*"
        done
    done
}

for picture in "$folder"/in/*; do
    for effort in 1 2 3 4 5 6 7 8 9; do
        judge "$picture" -e "$effort"
    done
    judge "$picture" -e 3 --container=1
    judge "$picture" -e 4 -R 1
    judge "$picture" -e 3 -C 5
    judge "$picture" -e 3 -P 4
    judge "$picture" -e 4 -P 6
    judge "$picture" -e 4 -g 0
    judge "$picture" -e 4 -g 3 --group_order=1
done
echo "files: $same same, $refused refused, $different different"
test "$different" -eq 0
