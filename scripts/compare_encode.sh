#!/bin/sh
# Encodes pictures with jxlenc, decodes the files with jxldec and djxl, and compares both with the picture:
# compare_encode.sh JXLENC JXLDEC [SIDE]
#
# JXLENC and JXLDEC are the programs, built. The pictures are those of scripts/draw_pictures.py, and small ones of each depth
# from 1 to 16 bits, with alpha and without; each is encoded at each effort, and in boxes with Exif and XMP data. What jxldec
# writes has to be the picture, byte for byte, and the data; so has what djxl writes at 8 and 16 bits, of floats the numbers. Of
# the other depths, which djxl stretches, it only has to decode the file. A line tells each file that is refused or differs; the
# last line counts them. The status is 1 if there is one. djxl is of libjxl, which is not of this repository: DJXL names it, or
# several, as DJXL="djxl djxl11".
set -eu
jxlenc=$1
jxldec=$2
side=${3:-300}
here=$(dirname "$0")
folder=$(mktemp -d)
trap 'rm -rf "$folder"' EXIT
mkdir "$folder/in"
python3 "$here/draw_pictures.py" "$folder/in" "$side"
python3 "$here/draw_depths.py" "$folder/in"
printf 'II*\0\010\0\0\0\0\0\0\0\0\0' > "$folder/a.exif"
printf '<x:xmpmeta xmlns:x="adobe:ns:meta/"/>' > "$folder/a.xmp"
same=0
wrong=0

# Counts a comparison: count NUMBER TEXT; the number is 0 where it holds.
count() {
    if [ "$1" -eq 0 ]; then
        same=$((same + 1))
    else
        wrong=$((wrong + 1))
        echo "$2: $(tail -n 1 "$folder/said")"
    fi
}

# Whether two files hold one picture.
alike() {
    case $1 in
        *.pfm) python3 "$here/same_pfm.py" "$1" "$2" ;;
        *) cmp "$1" "$2" ;;
    esac
}

# Judges the file that jxlenc makes of this picture by these options.
judge() {
    picture=$1
    shift
    ending=${picture##*.}
    name="$(basename "$picture") $*"
    rm -f "$folder"/ours.* "$folder"/theirs.* "$folder/a.jxl"
    if ! "$jxlenc" "$picture" -o "$folder/a.jxl" "$@" 2> "$folder/said"; then
        count 1 "$name, not encoded"
        return
    fi
    fits=0
    { "$jxldec" "$folder/a.jxl" --format "$ending" -o "$folder/ours.$ending" && cmp "$picture" "$folder/ours.$ending"; } > "$folder/said" 2>&1 || fits=1
    count "$fits" "$name, jxldec"
    for djxl in ${DJXL:-djxl}; do
        fits=0
        "$djxl" "$folder/a.jxl" "$folder/theirs.$ending" --quiet > "$folder/said" 2>&1 || fits=1
        case $picture in
            */depth_*) ;;
            *) alike "$picture" "$folder/theirs.$ending" > "$folder/said" 2>&1 || fits=1 ;;
        esac
        count "$fits" "$name, $(basename "$djxl")"
    done
}

for picture in "$folder"/in/*; do
    for effort in fast usual best; do
        judge "$picture" -e "$effort"
    done
    judge "$picture" --container
    judge "$picture" --exif "$folder/a.exif" --xmp "$folder/a.xmp"
    fits=0
    { "$jxldec" "$folder/a.jxl" --exif "$folder/b.exif" --xmp "$folder/b.xmp" && cmp "$folder/a.exif" "$folder/b.exif" &&
        cmp "$folder/a.xmp" "$folder/b.xmp"; } > "$folder/said" 2>&1 || fits=1
    count "$fits" "$(basename "$picture"), metadata"
done
echo "comparisons: $same same, $wrong wrong"
test "$wrong" -eq 0
