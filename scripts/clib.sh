#!/bin/sh
# The library for C: clib.sh build | test | install PREFIX
#
# `build` proves crates/jxl_c and builds crates/jxl_c/out/c: libjxl_lossless.a, with c/heap.c, and libjxl_lossless.so.
# `test` tries what was built, from C and Python: it needs gcc and python3, and takes what else there is of clang, g++,
# djxl and cjxl. `install` copies the header, the libraries and the pkg-config file below PREFIX.
set -eu
cd "$(dirname "$0")/.."
crate=crates/jxl_c
out=${CLIB_OUT:-$crate/out}
clib=$out/c
header=include/jxl_lossless.h
CC=${CC:-gcc}
flags="-O2 -Wall -Wextra -Werror"

build() {
    [ -n "${CLIB_OUT:-}" ] || (cd $crate && rt lib)
    mkdir -p "$clib"
    $CC $flags -fPIC -c c/heap.c -o "$clib/heap.o"
    cp "$out/libjxl_c.a" "$clib/libjxl_lossless.a"
    ar r "$clib/libjxl_lossless.a" "$clib/heap.o" 2> /dev/null
    echo '{ global: jxl_lossless_*; local: *; };' > "$clib/exports"
    $CC -shared -Wl,-soname,libjxl_lossless.so.0 -Wl,--version-script="$clib/exports" \
        -Wl,--whole-archive "$clib/libjxl_lossless.a" -Wl,--no-whole-archive -o "$clib/libjxl_lossless.so.0"
    cp "$clib/libjxl_lossless.so.0" "$clib/libjxl_lossless.so"
}

install_below() {
    mkdir -p "$1/include" "$1/lib/pkgconfig"
    cp $header "$1/include/"
    cp "$clib/libjxl_lossless.a" "$clib/libjxl_lossless.so.0" "$1/lib/"
    ln -sf libjxl_lossless.so.0 "$1/lib/libjxl_lossless.so"
    sed "s|@PREFIX@|$1|" c/jxl_lossless.pc.in > "$1/lib/pkgconfig/jxl_lossless.pc"
}

fail() {
    echo "clib: $*" >&2
    exit 1
}

has() { command -v "$1" > /dev/null; }

# The archive has no data of its own, and exports the names of the header, and no others.
test_archive() {
    data=$(size -A "$out/libjxl_c.a" | awk '$1 ~ /^\.t?(data|bss)/ && $1 !~ /rel\.ro/ { n += $2 } END { print n + 0 }')
    [ "$data" -eq 0 ] || fail "the archive has $data bytes of data"
    grep -o 'jxl_lossless_[a-z_0-9]*(' $header | tr -d '(' | sort -u > "$folder/declared"
    nm -g --defined-only "$out/libjxl_c.a" 2> /dev/null | awk 'NF == 3 { print $3 }' | sort -u > "$folder/exported"
    cmp -s "$folder/declared" "$folder/exported" || fail "the archive exports: $(tr '\n' ' ' < "$folder/exported")"
    nm -D --defined-only "$clib/libjxl_lossless.so" | awk '{ print $3 }' | sort -u > "$folder/dynamic"
    cmp -s "$folder/declared" "$folder/dynamic" || fail "the shared object exports: $(tr '\n' ' ' < "$folder/dynamic")"
    echo "archive: no data, $(wc -l < "$folder/declared") names"
}

# The header is C99 and C++98, and programs link by each compiler and in each way.
test_links() {
    echo "#include \"jxl_lossless.h\"" > "$folder/alone.c"
    $CC -std=c99 -pedantic $flags -Iinclude -fsyntax-only "$folder/alone.c"
    ! has g++ || g++ -std=c++98 -pedantic $flags -Iinclude -fsyntax-only -x c++ "$folder/alone.c"
    for how in "gcc -std=c99" "gcc -std=c99 -static" "clang -std=c99" "g++ -std=c++98 -x c++" "gcc -std=c99 -shared-object"; do
        has "${how%% *}" || continue
        library=$clib/libjxl_lossless.a
        case $how in *-shared-object) how=${how% *} library="$clib/libjxl_lossless.so -Wl,-rpath,$(cd "$clib" && pwd)" ;; esac
        case $how in *"-x c++") last="-x none" ;; *) last= ;; esac
        $how $flags -Iinclude examples/c/jxl2ppm.c $last $library -o "$folder/jxl2ppm"
        "$folder/jxl2ppm" examples/ball.jxl > "$folder/ball.pgm" || fail "$how: examples/ball.jxl is not decoded"
        [ "$(md5sum < "$folder/ball.pgm")" = "${ball:=$(md5sum < "$folder/ball.pgm")}" ] || fail "$how: another picture"
        $how $flags -Iinclude examples/c/ppm2jxl.c $last $library -o "$folder/ppm2jxl"
        "$folder/ppm2jxl" "$folder/ball.pgm" > "$folder/again" || fail "$how: the picture is not encoded"
        "$folder/jxl2ppm" "$folder/again" | cmp -s - "$folder/ball.pgm" || fail "$how: another picture after encoding"
    done
    echo "links: the same picture by each compiler"
}

# Draws pictures of this longer side, and encodes them by cjxl, if it is there, into a folder.
draw() {
    has cjxl || return 0
    mkdir -p "$folder/drawn" "$2"
    python3 scripts/draw_pictures.py "$folder/drawn" "$1"
    for picture in "$folder"/drawn/*.p[gpa]m; do
        name=$2/$(basename "$picture" | tr . _).jxl
        cjxl "$picture" "$name" -d 0 -e 3 --quiet 2> /dev/null || rm -f "$name"
    done
}

# What the library says of each picture, and the pixels of djxl.
test_pictures() {
    cp examples/ball.jxl "$folder/"
    draw 40 "$folder"
    $CC -std=c99 $flags -Iinclude c/tests/samples.c "$clib/libjxl_lossless.a" -o "$folder/samples"
    same=0
    for file in "$folder"/*.jxl; do
        "$folder/samples" "$file" > "$file.said" || fail "samples: $(basename "$file")"
        has djxl || continue
        case $(head -1 "$file.said") in *"bits 8 "* | *"bits 16 "*) ;; *) continue ;; esac
        case $(head -1 "$file.said") in *"interleaved 1 "*) kind=pgm ;; *"interleaved 3 "*) kind=ppm ;; *) kind=pam ;; esac
        djxl "$file" "$file.$kind" --quiet 2> /dev/null || continue
        "$folder/jxl2ppm" "$file" > "$file.ours" || fail "jxl2ppm: $(basename "$file")"
        python3 c/tests/same_pixels.py "$file.ours" "$file.$kind" || fail "other pixels than djxl: $(basename "$file")"
        same=$((same + 1))
    done
    echo "pictures: $(ls "$folder"/*.jxl | wc -l) decoded, $same with the pixels of djxl"
}

# Damaged files, and pictures with descriptions that are wrong, between fences and under sanitizers.
test_damage() {
    words=
    for file in "$folder"/*.jxl; do
        samples=$(sed -n 's/.* samples \([0-9]*\)$/\1/p' "$file.said" | head -1)
        [ -z "$samples" ] || words="$words $file:$samples"
    done
    python3 c/tests/damage.py "${SEED:-1}" "${CASES:-2000}" "$folder/cases" $words
    for test in fuzz fuzz_encode; do
        $CC -std=c99 $flags -g -fsanitize=address,undefined -Iinclude c/tests/$test.c "$clib/libjxl_lossless.a" -o "$folder/$test"
    done
    "$folder/fuzz" "$folder/cases" || fail "fuzz ended with status $?"
    "$folder/fuzz_encode" "${SEED:-1}" $((${CASES:-2000} / 4)) || fail "fuzz_encode ended with status $?"
}

test_memory() {
    $CC -std=c99 $flags -Iinclude c/tests/refuse.c "$out/libjxl_c.a" -o "$folder/refuse"
    "$folder/refuse" $(ls "$folder"/*.jxl | head -5) || fail "refuse ended with status $?"
}

# Each picture is encoded, and decoded to the same; djxl decodes it to the pixels of the file that it is of. Some of
# the requests for memory are refused: of small pictures EACH for each effort.
test_encode() {
    mkdir -p "$folder/encoded" "$folder/small/encoded"
    draw 6 "$folder/small"
    $CC -std=c99 $flags -Iinclude c/tests/encode.c "$out/libjxl_c.a" -o "$folder/encode"
    "$folder/encode" "$folder/encoded" "${TRIES:-20}" "$folder"/*.jxl > "$folder/encode.said" || fail "$(tail -1 "$folder/encode.said")"
    [ ! -f "$folder/small/narrow_ppm.jxl" ] || "$folder/encode" "$folder/small/encoded" "${EACH:-100}" "$folder"/small/*.jxl > "$folder/small.said" ||
        fail "$(tail -1 "$folder/small.said")"
    k=0 same=0
    for file in "$folder"/*.jxl; do
        k=$((k + 1))
        for kind in pgm ppm pam; do
            [ -f "$file.$kind" ] || continue
            djxl "$folder/encoded/$k.jxl" "$folder/encoded/$k.$kind" --quiet 2> /dev/null || fail "djxl: $(basename "$file"), encoded"
            python3 c/tests/same_pixels.py "$folder/encoded/$k.$kind" "$file.$kind" || fail "other pixels: $(basename "$file"), encoded"
            same=$((same + 1))
        done
    done
    echo "encode: $same with the pixels of djxl"
}

test_threads() {
    $CC -std=c99 $flags -Iinclude c/tests/threads.c "$clib/libjxl_lossless.a" -pthread -o "$folder/threads"
    "$folder/threads" examples/ball.jxl || fail "threads ended with status $?"
}

test_python() {
    JXL_LOSSLESS_SO=$clib/libjxl_lossless.so python3 examples/python/jxl_lossless.py examples/ball.jxl > "$folder/python" ||
        fail "examples/python/jxl_lossless.py"
    JXL_LOSSLESS_SO=$clib/libjxl_lossless.so python3 examples/python/jxl_lossless.py examples/ball.jxl "$folder/encoded/python.jxl" > "$folder/python"
    "$folder/jxl2ppm" "$folder/encoded/python.jxl" | cmp -s - "$folder/ball.pgm" || fail "examples/python/jxl_lossless.py: encode"
    echo "python: $(head -c 60 "$folder/python")"
}

# The loader for programs of GTK, if its headers are there: a thumbnail of the size of the picture.
test_loader() {
    pkg-config --exists gdk-pixbuf-2.0 2> /dev/null || return 0
    query=$(pkg-config --variable=gdk_pixbuf_query_loaders gdk-pixbuf-2.0)
    mkdir "$folder/loaders"
    $CC -O2 -Wall -Werror -shared -fPIC -Iinclude examples/gdk-pixbuf/loader.c $(pkg-config --cflags --libs gdk-pixbuf-2.0) \
        "$clib/libjxl_lossless.a" -o "$folder/loaders/libpixbufloader-jxl-lossless.so"
    has gdk-pixbuf-thumbnailer && [ -x "$query" ] || return 0
    GDK_PIXBUF_MODULEDIR=$folder/loaders "$query" > "$folder/loaders.cache"
    GDK_PIXBUF_MODULE_FILE=$folder/loaders.cache gdk-pixbuf-thumbnailer -s 64 examples/ball.jxl "$folder/thumbnail" ||
        fail "gdk-pixbuf-thumbnailer"
    sides=$(od -An -tx1 -j16 -N8 "$folder/thumbnail" | tr -d ' ')
    [ "$sides" = 0000004000000020 ] || fail "the thumbnail has other sides: $sides"
    echo "gdk-pixbuf: a thumbnail"
}

# The archive of the other compiler says the same of each file.
test_compilers() {
    [ -z "${CLIB_OUT:-}" ] || return 0
    cp "$out/libjxl_c.a" "$folder/kept.a"
    made=yes
    (cd $crate && rt lib --backend rattle) > "$folder/said" 2>&1 || made=no
    cp "$out/libjxl_c.a" "$folder/second.a"
    cp "$folder/kept.a" "$out/libjxl_c.a"
    [ $made = yes ] || fail "rt lib --backend rattle: $(tail -1 "$folder/said")"
    cmp -s "$folder/kept.a" "$folder/second.a" && fail "both archives are of one compiler"
    $CC -std=c99 $flags -Iinclude c/tests/samples.c "$folder/second.a" "$clib/heap.o" -o "$folder/samples2"
    for file in "$folder"/*.jxl; do
        "$folder/samples2" "$file" | cmp -s - "$file.said" || fail "the compilers differ: $(basename "$file")"
    done
    $CC -std=c99 $flags -Iinclude c/tests/encode.c "$folder/second.a" -o "$folder/encode2"
    "$folder/encode2" "$folder/encoded" 0 "$folder"/*.jxl 2> /dev/null | cmp -s - "$folder/encode.said" || fail "the compilers encode otherwise"
    echo "compilers: both archives say the same"
}

case ${1:-} in
    build) build ;;
    install) install_below "$2" ;;
    test)
        folder=$(mktemp -d)
        trap 'rm -rf "$folder"' EXIT
        test_archive
        test_links
        test_pictures
        test_damage
        test_memory
        test_encode
        test_threads
        test_python
        test_loader
        test_compilers
        ;;
    *) fail "usage: clib.sh build | test | install PREFIX" ;;
esac
