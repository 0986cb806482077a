#!/bin/sh
# Runs jxldec and jxlenc by their command lines, and compares statuses, outputs and standard error: commands.sh JXLDEC [JXLENC]
#
# JXLDEC and JXLENC are the programs, built. A line tells each command that ends otherwise than docs/JXLDEC.md and
# docs/JXLENC.md say; the last line counts them. The status is 1 if one does. After "cannot read" and "cannot write" comes
# what the C library says of the error.
set -u
program=$(realpath "$1")
encoder=${2:+$(realpath "$2")}
here=$(cd "$(dirname "$0")" && pwd)
ball=$here/../examples/ball.jxl
folder=$(mktemp -d)
trap 'rm -rf "$folder"' EXIT
cd "$folder" || exit 1
cp "$ball" ball.jxl
cp ball.jxl ./-x.jxl
printf 'no picture' > other.jxl
: > empty.jxl
head -c 20 ball.jxl > short.jxl
head -c 5 ball.jxl > header.jxl
printf '\0\0\0\014JXL \r\n\207\n' > boxes.jxl
mkdir folder a.b
# Pictures of 3x2 that libjxl's encoder made: RGB, RGB with alpha, and grey with depths and a spot colour.
printf '\377\012\010\100\020\011\010\002\001\000\120\000\113\022\245\102\205\044\222\241\172\001\203\103\301\017\300\062\337\231\007\000' > colours.jxl
printf '\377\012\010\100\260\022\010\010\020\000\130\000\113\022\245\102\205\044\222\241\172\001\205\303\300\017\100\163\276\347\074\000\250\131' > alpha.jxl
printf '\377\012\010\100\120\020\200\000\000\340\001\000\000\000\000\300\101\161\043\010\040\000\001\000\110\000\113\022\245\102\205\044\022\240\172\031\136\000\077\000\352\255\003\003' > spot.jxl
# A lossy one, of cjxl.
printf '\377\012\010\100\220\024\027\002\000\022\010\001\000\310\000\135\345\022\000\000\025\052\243\214\033\274\234\353\371\362\103\207' > lossy.jxl
# A grey one of 4x3 whose tree is a chain of five decisions.
printf '\377\012\020\000\006\200\240\270\021\010\006\001\000\320\000\053\011\044\340\200\003\122\226\121\125\104\125\125\004\000\000\000\000\000\000\000\000\000\000\104\314\124\025\121\125\025\002\000\000\340\333\037\300\341\077\340\364\017\060\376\003\352\077\000\040\011\060' > chain.jxl
# One of 4x3 whose image has a tree of its own.
printf '\377\012\020\000\006\200\240\270\021\010\006\001\000\074\000\211\204\102\142\354\011\172\201\036\240\023\164\000\040\001' > own.jxl
# A grey one of 16x16 with a profile, of cjxl.
printf '\377\012\103\100\030\227\012\003\022\346\001\320\234\222\001\056\316\274\216\057\265\325\027\264\317\035\013\055\160\311\224\040\167\072\326\061\300\314\046\061\263\111\135\135\115\255\013\236\010\000\200\326\357\372\117\346\003\014\370\137\130\132\361\035\155\262\270\324\165\042\216\141\003\145\151\123\115\113\361\000\041\247\000\017\145\103\363\000\041\145\137\115\123\131\313\066\077\166\170\357\022\317\260\203\257\260\271\262\251\247\250\164\300\223\225\223\257\246\264\267\241\262\145\100\144\140\142\340\317\251\366\126\131\000\235\206\361\216\265\000\010\002\001\000\050\001\113\050\044\306\267\025\024\114\061\122\174\336\112\362\110\107\214\301\032\061\130\061\006\301\263\145\161\004\260\073\146\373\153\316\153\171\220\200\177\036\044\000\000\325\070\376\001\046\015\300\147\064\077\000\370\330\376\007\104\272\000\340\262\260\037\000\021\127\374\243\070\002\200\003' > profile.jxl
input=/dev/null
right=0
wrong=0

# Counts a comparison: judge NUMBER TEXT; the number is 0 where it holds.
judge() {
    if [ "$1" -eq 0 ]; then
        right=$((right + 1))
    else
        wrong=$((wrong + 1))
        echo "wrong: $2"
    fi
}

# Runs a command on the file $input: expect STATUS ERROR ARGUMENT.. ERROR is the one line on standard error, or - for none;
# of a command line that is refused, standard error only has to begin with it.
expect() {
    status=$1
    error=$2
    shift 2
    "$program" "$@" > out 2> err < "$input"
    seen=$?
    line=$(cat err)
    case $error in
        -) test ! -s err ;;
        error:*) test "${line#"$error"}" != "$line" ;;
        *) test "$line" = "$error" ;;
    esac
    fits=$?
    test "$seen" -eq "$status"
    judge "$((fits + $?))" "$* -> $seen: $line"
}

# Judges what a file begins with: begins FILE TEXT.
begins() {
    test "$(head -c "${#2}" "$1" 2> err)" = "$2"
    judge $? "$1 does not begin with $2"
}

# Judges that a file was not made.
absent() {
    test ! -e "$1"
    judge $? "$1 was made"
}

# Endings and formats.
expect 0 - ball.jxl -o a.pgm
begins a.pgm P5
expect 0 - ball.jxl -o a.PGM
begins a.PGM P5
expect 0 - colours.jxl -o a.ppm
begins a.ppm P6
expect 0 - colours.jxl -o a.PpM
begins a.PpM P6
expect 0 - colours.jxl -o a.pnm
cmp -s a.pnm a.PpM
judge $? 'RGB to .pnm is not what it is to .ppm'
for ending in ppm PPM pnm PNM; do
    expect 0 - ball.jxl -o "grey.$ending"
    cmp -s "grey.$ending" a.pgm
    judge $? "grey to .$ending is not what it is to .pgm"
done
expect 0 - ball.jxl --format pnm
begins out P5
expect 0 - ball.jxl -o a.pam
begins a.pam P7
expect 0 - ball.jxl -o a.text
begins a.text 'channel 0 64x32'
expect 0 - ball.jxl --output a.other --format pgm
begins a.other P5
expect 0 - ball.jxl -o a.ppm --format text
begins a.ppm 'channel 0 64x32'
expect 0 - ball.jxl -o plain
begins plain P5
expect 0 - colours.jxl -o plain
begins plain P6
expect 0 - alpha.jxl -o plain
begins plain P7
expect 0 - ball.jxl -o a.b/c
begins a.b/c P5
expect 0 - ball.jxl -o .pam
begins .pam P5
expect 1 'jxldec: a.bmp: no format has this ending; there are .png, .apng, .pgm, .ppm, .pnm, .pam, .pfm and .text' ball.jxl -o a.bmp
absent a.bmp
expect 0 - ball.jxl -o a.PNG
begins a.PNG "$(printf '\211PNG')"
expect 1 'jxldec: ball.jxl: this format cannot hold the picture; --format text can' ball.jxl -o a.pfm
absent a.pfm
expect 1 'jxldec: colours.jxl: this format cannot hold the picture; --format text can' colours.jxl -o b.pgm
expect 2 "error: invalid value 'bmp'" ball.jxl --format bmp

# Standard input and standard output.
expect 0 - ball.jxl
begins out P5
expect 0 - ball.jxl -o -
begins out P5
absent ./-
expect 0 - ball.jxl --info
begins out 'JPEG XL image, 64x32, (possibly) lossless, 8-bit Grayscale'
expect 2 "error: the argument '--info' cannot be used with" ball.jxl --info -o a.txt
absent a.txt
input=ball.jxl
expect 0 - -
begins out P5
expect 0 - - --info
begins out 'JPEG XL image, 64x32'
input=/dev/null
expect 0 - -- -x.jxl
begins out P5
expect 0 - -h
begins out 'Decodes a lossless JPEG XL file'
expect 0 - --help
begins out 'Decodes a lossless JPEG XL file'
expect 0 - -V
begins out 'jxldec '
expect 0 - --version

# What a format leaves out.
expect 0 'jxldec: spot.jxl: channels left out: Depth Spotcolor' spot.jxl
expect 0 'jxldec: spot.jxl: channels left out: Depth Spotcolor' spot.jxl --format pam
expect 0 'jxldec: alpha.jxl: channels left out: Alpha' alpha.jxl --format ppm
begins out P6
expect 0 - spot.jxl -q
expect 0 - spot.jxl --format text
expect 0 - spot.jxl --info

# What no chunk of a PNG file says: a frame of cjxl after headers with PQ and white E, perceptual; with a negative coordinate;
# with other coordinates; with P3, perceptual; and with colours that are multiplied by alpha.
printf '\377\012\010\100\020\040\106\207\010\002\001\000\114\000\113\022\305\202\205\044\216\021\167\123\167\201\016\100\332\317\055\003\000' > pq.jxl
printf '\377\012\010\100\020\040\004\022\235\030\234\044\210\275\146\241\142\000\000\000\010\110\350\040\003\200\307\054\321\042\010\002\001\000\114\000\113\022\305\202\205\044\216\021\167\123\167\201\016\100\332\317\055\003\000' > neg.jxl
printf '\377\012\010\100\020\040\004\022\235\030\234\044\010\045\134\101\304\003\210\204\012\106\225\000\240\017\340\253\320\042\010\002\001\000\114\000\113\022\305\202\205\044\216\021\167\123\167\201\016\100\332\317\055\003\000' > custom.jxl
printf '\377\012\010\100\020\220\311\205\010\002\001\000\114\000\113\022\305\202\205\044\216\021\167\123\167\201\016\100\332\317\055\003\000' > p3.jxl
printf '\377\012\000\160\060\000\202\342\102\010\010\020\000\070\000\113\022\305\202\205\044\016\032\220\346\001\170\103\001' > mult.jxl
expect 0 'jxldec: pq.jxl: transfer function left out
jxldec: pq.jxl: rendering intent left out' pq.jxl -o pq.png
begins pq.png "$(printf '\211PNG')"
expect 0 'jxldec: neg.jxl: negative coordinates of colours left out
jxldec: neg.jxl: coordinates of colours rounded' neg.jxl -o neg.png
expect 0 - custom.jxl -o custom.png
expect 0 'jxldec: p3.jxl: rendering intent left out' p3.jxl -o p3.png
expect 0 'jxldec: mult.jxl: colours stay multiplied by alpha' mult.jxl -o mult.png
expect 0 - pq.jxl -q -o pq.png
expect 0 - pq.jxl -o pq.ppm
expect 0 - pq.jxl --info

# An animation of three pictures of one colour each, for 70, 200 and 330 ms, of cjxl.
printf '\377\012\010\100\101\000\026\024\227\004\010\010\340\001\000\000\110\000\113\022\245\102\205\044\326\150\200\252\306\007\140\000\035\000\367\001\010\010\040\005\000\000\134\000\113\022\245\102\205\044\326\140\214\013\000\000\300\230\175\000\202\140\076\350\003\367\001\010\010\140\110\000\000\114\000\113\022\245\102\205\044\326\150\140\374\254\007\340\002\324\203\035\344\003' > frames.jxl
# Judges the colour of a text of 3x2: coloured FILE RED GREEN BLUE.
coloured() {
    {
        number=0
        for sample in "$2" "$3" "$4" 255; do
            printf 'channel %s 3x2\n%s %s %s\n%s %s %s\n' $number $sample $sample $sample $sample $sample $sample
            number=$((number + 1))
        done
    } | cmp -s - "$1"
    judge $? "$1 is not of the colour $2 $3 $4"
}
expect 0 - frames.jxl --frame 0 --format text
coloured out 10 20 30
expect 0 - frames.jxl --frame 1 -o frame.text
coloured frame.text 200 0 9
expect 0 - frames.jxl --frame 2 --format text
coloured out 0 99 255
expect 0 - frames.jxl --frame 2
begins out P7
expect 0 - frames.jxl --frame 1 -o frame.png
begins frame.png "$(printf '\211PNG')"
more='jxldec: frames.jxl: frame 0 of 3; --frame N writes another'
expect 0 "$more" frames.jxl --format text
coloured out 10 20 30
expect 0 "jxldec: frames.jxl: channels left out: Alpha
$more" frames.jxl -o frame.ppm
expect 0 - frames.jxl -q
expect 0 - frames.jxl --info
test "$(tail -n 4 out)" = 'num_frames: 3
frame 0: duration: 70.0 ms
frame 1: duration: 200.0 ms
frame 2: duration: 330.0 ms'
judge $? '--info does not print the durations'
expect 1 'jxldec: frames.jxl: no frame 3; frames are numbered from 0' frames.jxl --frame 3 -o none.pam
absent none.pam
expect 1 'jxldec: frames.jxl: this format cannot hold the picture; --format text can' frames.jxl --frame 1 -o none.pgm
absent none.pgm
expect 0 'jxldec: frames.jxl: channels left out: Alpha' frames.jxl --frame 1 -o frame.ppm
begins frame.ppm P6
expect 0 - ball.jxl --frame 0 -o frame.pgm
cmp -s frame.pgm a.pgm
judge $? 'frame 0 of a still picture is not the picture'
expect 1 'jxldec: ball.jxl: no frame 1; frames are numbered from 0' ball.jxl --frame 1
expect 1 'jxldec: lossy.jxl: not supported: a lossy picture (XYB)' lossy.jxl --frame 0
expect 1 'jxldec: other.jxl: not a JPEG XL file' other.jxl --frame 0
head -c 66 frames.jxl > frames_cut.jxl
expect 0 - frames_cut.jxl --frame 0 --format text
coloured out 10 20 30
expect 1 'jxldec: frames_cut.jxl: section 0 is truncated' frames_cut.jxl --frame 1
expect 0 'jxldec: frames_cut.jxl: frame 0 of 1 or more; --frame N writes another' frames_cut.jxl
expect 0 - frames_cut.jxl --info
test "$(tail -n 3 out)" = 'num_frames: 1
frame 0: duration: 70.0 ms
section 0 is truncated'
judge $? '--info does not say that a frame is truncated'
expect 2 "error: the argument '--info' cannot be used with" frames.jxl --info --frame 0
expect 2 "error: invalid value 'first'" frames.jxl --frame first

# Each frame to a file of its own.
expect 0 - frames.jxl --frames 'each-%d.text'
coloured each-0.text 10 20 30
coloured each-1.text 200 0 9
coloured each-2.text 0 99 255
absent each-3.text
expect 0 - frames.jxl --frames 'wide%03d.png'
for number in 0 1 2; do
    expect 0 - frames.jxl --frame $number -o one.png
    cmp -s one.png "wide00$number.png"
    judge $? "frame $number of --frames is not that of --frame"
done
absent wide003.png
expect 0 'jxldec: frames.jxl: channels left out: Alpha' frames.jxl --frames 'colours%01d' --format ppm
begins colours0 P6
begins colours2 P6
expect 0 - frames.jxl -q --frames '100%-%09d%.ppm'
begins '100%-000000002%.ppm' P6
input=ball.jxl
expect 0 - - --frames 'still%d.pgm'
input=/dev/null
cmp -s still0.pgm a.pgm
judge $? 'frame 0 of a still picture is not the picture'
absent still1.pgm
expect 1 'jxldec: frames_cut.jxl: frame 1: section 0 is truncated' frames_cut.jxl --frames 'cut%d.text'
coloured cut0.text 10 20 30
absent cut1.text
expect 1 'jxldec: none/0.pgm: cannot write: No such file or directory (os error 2)' ball.jxl --frames 'none/%d.pgm'
expect 1 'jxldec: frames.jxl: this format cannot hold the picture; --format text can' frames.jxl --frames 'grey%d.pgm'
absent grey0.pgm
expect 1 'jxldec: bmp%d.bmp: no format has this ending; there are .png, .apng, .pgm, .ppm, .pnm, .pam, .pfm and .text' frames.jxl --frames 'bmp%d.bmp'
expect 1 'jxldec: other.jxl: not a JPEG XL file' other.jxl --frames 'other%d.pgm'
expect 1 'jxldec: lossy.jxl: not supported: a lossy picture (XYB)' lossy.jxl --frames 'lossy%d.pgm'
for name in plain.png %s.png %d%d.png %00d.png %10d.png %0d.png %03d-%d.png %3d.png %D.png; do
    expect 2 "error: invalid value '$name' for '--frames <PATTERN>'" frames.jxl --frames "$name"
done
for option in --info '-o x.png' '--frame 1' '--icc x' '--exif x' '--xmp x'; do
    # shellcheck disable=SC2086
    expect 2 'error: the argument ' frames.jxl --frames 'no%d.png' $option
done
absent no0.png

# The animation as an APNG file: acTL of three frames, played without end; fcTL of each, for 7/100, 1/5 and 33/100 of a second; and of
# each the data that its PNG file has.
hex() {
    od -An -v -tx1 "$1" | tr -d ' \n'
}
# Judges that a file has these bytes: holds FILE HEX.
holds() {
    case $(hex "$1") in
        *"$2"*) judge 0 '' ;;
        *) judge 1 "$1 does not have the bytes $2" ;;
    esac
}
# The compressed data of a PNG file: all of its IDAT, which comes before IEND.
data_of() {
    bytes=$(hex "$1")
    bytes=${bytes#*49444154}
    echo "${bytes%????????0000000049454e44ae426082}"
}
# Grey of 3 bits, from 0 to 7, of cjxl 0.11: in a PNG file it has 8 bits, of which 3 are significant.
printf '\377\012\000\000\016\140\041\050\156\004\010\004\001\000\044\000\113\030\213\025\012\015\205\343\017' > grey3.jxl
expect 0 - grey3.jxl -o grey3.png
holds grey3.png 4948445200000008000000010800000000c66bb09f
holds grey3.png 00000001734249540371d88211
expect 0 - frames.jxl -o each.apng
begins each.apng "$(printf '\211PNG')"
holds each.apng 000000086163544c0000000300000000ceedbac0
holds each.apng 0000001a6663544c0000000000000003000000020000000000000000000700640000f2bf4fd2
holds each.apng 0000001a6663544c0000000100000003000000020000000000000000000100050000af99f1b1
holds each.apng 0000001a6663544c0000000300000003000000020000000000000000002100640000cadbac4b
holds each.apng "49444154$(data_of wide000.png)"
holds each.apng "6664415400000002$(data_of wide001.png)"
holds each.apng "6664415400000004$(data_of wide002.png)"
holds each.apng 0000000049454e44ae426082
expect 0 - frames.jxl -o each.APNG -q
cmp -s each.apng each.APNG
judge $? '.APNG is not what .apng is'
expect 0 - frames.jxl --format apng
cmp -s each.apng out
judge $? '--format apng is not what .apng is'
expect 0 - frames.jxl --frame 1 --format apng
cmp -s wide001.png out
judge $? '--frame 1 --format apng is not the PNG file of that frame'
expect 0 - frames.jxl --frames 'one%d.apng'
cmp -s wide002.png one2.apng
judge $? '--frames does not write a PNG file to .apng'
expect 0 "$more" frames.jxl --format png -o first.apng
cmp -s wide000.png first.apng
judge $? '--format png to .apng is not the PNG file of the first frame'
expect 0 - ball.jxl --format png -o still.png
expect 0 - ball.jxl -o still.apng
cmp -s still.png still.apng
judge $? 'a still picture as APNG is not its PNG file'
expect 0 - frames.jxl --info --format apng
begins out 'JPEG XL animation'
expect 1 'jxldec: frames_cut.jxl: section 0 is truncated' frames_cut.jxl -o cut.apng
absent cut.apng
expect 1 'jxldec: lossy.jxl: not supported: a lossy picture (XYB)' lossy.jxl --format apng
expect 1 'jxldec: other.jxl: not a JPEG XL file' other.jxl -o other.apng
expect 1 'jxldec: folder: cannot write: Is a directory (os error 21)' frames.jxl --format apng -o folder
# An animation with a profile: the picture of profile.jxl twice.
printf '\377\012\103\004\001\010\313\245\302\200\204\171\000\064\247\144\200\213\063\257\343\113\155\365\005\355\163\307\102\013\134\062\045\310\235\216\165\014\060\263\111\314\154\122\127\127\123\353\202\047\002\000\240\365\273\376\223\371\000\003\376\027\226\126\174\107\233\054\056\165\235\210\143\330\100\131\332\124\323\122\074\100\310\051\300\103\331\320\074\100\110\331\127\323\124\326\262\315\217\035\336\273\304\063\354\340\053\154\256\154\352\051\052\035\360\144\345\344\253\051\355\155\250\154\031\020\031\230\030\370\163\252\275\125\026\100\247\141\274\143\055\000\010\002\036\000\000\050\001\113\050\044\306\267\025\024\114\061\122\174\336\112\362\110\107\214\301\032\061\130\061\006\301\263\145\161\004\260\073\146\373\153\316\153\171\220\200\177\036\044\000\000\325\070\376\001\046\015\300\147\064\077\000\370\330\376\007\104\272\000\340\262\260\037\000\021\127\374\243\070\002\200\003\010\002\036\004\000\050\001\113\050\044\306\267\025\024\114\061\122\174\336\112\362\110\107\214\301\032\061\130\061\006\301\263\145\161\004\260\073\146\373\153\316\153\171\220\200\177\036\044\000\000\325\070\376\001\046\015\300\147\064\077\000\370\330\376\007\104\272\000\340\262\260\037\000\021\127\374\243\070\002\200\003' > moving.jxl
expect 0 - moving.jxl -o moving.apng --icc moving.icc
expect 0 - profile.jxl --format png -o still.png --icc still.icc
cmp -s moving.icc still.icc
judge $? 'the profile of an animation is not the one that it has'
holds moving.apng 69434350
holds moving.apng "6664415400000002$(data_of still.png)"
expect 0 - moving.jxl --icc again.icc
cmp -s again.icc still.icc
judge $? 'without -o, --icc does not write the profile of an animation'
expect 1 'jxldec: frames.jxl: no colour profile' frames.jxl -o some.apng --icc none.icc
cmp -s some.apng each.apng
judge $? 'the animation is another one if its profile is missing'
expect 1 'jxldec: frames.jxl: no Exif data' frames.jxl -o some.apng --exif none.exif
absent none.icc
absent none.exif

# Boxes after the codestream that have an error: the picture, and a warning. One before it is an error.
boxed() {
    printf '\0\0\0\014JXL \r\n\207\n\0\0\0\024ftypjxl \0\0\0\0jxl '
}
whole() {
    printf '\0\0\0\050jxlc'
    cat colours.jxl
}
{ boxed; whole; } > whole.jxl
{ boxed; whole; printf '\0\0\0\024Exifabc'; } > cut.jxl
{ boxed; whole; whole; } > twice.jxl
{ boxed; whole; printf '\0\0\0\010jbrd'; } > jbrd.jxl
{ boxed; printf '\0\0\0\010jbrd'; whole; } > first.jxl
expect 0 - whole.jxl -o whole.ppm
for name in cut twice jbrd; do
    case $name in
        cut) reason='a box that passes the end of the file' ;;
        twice) reason='a second codestream' ;;
        jbrd) reason='not supported: a JPEG file to be rebuilt' ;;
    esac
    expect 0 "jxldec: $name.jxl: ignored after the codestream: $reason" $name.jxl -o $name.ppm
    cmp -s $name.ppm whole.ppm
    judge $? "$name.jxl is not what it is without its last box"
    expect 0 "jxldec: $name.jxl: ignored after the codestream: $reason" $name.jxl --info
    begins out 'JPEG XL file format container'
    expect 0 - $name.jxl -q -o $name.ppm
    expect 0 - $name.jxl -q --info
done
expect 1 'jxldec: first.jxl: not supported: a JPEG file to be rebuilt' first.jxl -o first.ppm
absent first.ppm

# Exif data after the codestream that say an orientation: in a PNG file, whose picture is upright, it is 1; --exif gives the data of
# the file. Data without a TIFF header are kept. The chunk eXIf comes after the header and sRGB, so its data begin at byte 54.
printf 'II\052\000\010\000\000\000\001\000\022\001\003\000\001\000\000\000\010\000\000\000\000\000\000\000' > turn.exif
printf 'II\052\000\010\000\000\000\001\000\022\001\003\000\001\000\000\000\001\000\000\000\000\000\000\000' > upright.exif
printf 'IM\052\000\010\000\000\000\001\000\022\001\003\000\001\000\000\000\010\000\000\000\000\000\000\000' > broken.exif
for name in turn upright broken; do
    { boxed; whole; printf '\0\0\0\046Exif\0\0\0\0'; cat $name.exif; } > $name.jxl
    case $name in
        broken) written=broken.exif ;;
        *) written=upright.exif ;;
    esac
    expect 0 - $name.jxl -o $name.png --exif out.exif
    { printf eXIf; cat $written; } > chunk
    tail -c +51 $name.png | head -c 30 | cmp -s - chunk
    judge $? "the Exif data of $name.png are not those of $written"
    cmp -s $name.exif out.exif
    judge $? "--exif gives other data than those of $name.jxl"
    "$program" $name.jxl -o $name.ppm && cmp -s $name.ppm whole.ppm
    judge $? "the picture of $name.jxl is another one"
done

# Those of an animation are also in the APNG file, once.
{ boxed; printf '\0\0\0\146jxlc'; cat frames.jxl; printf '\0\0\0\046Exif\0\0\0\0'; cat turn.exif; } > turning.jxl
expect 0 - turning.jxl -o turning.apng --exif out.exif
cmp -s turn.exif out.exif
judge $? '--exif gives other data than those of an animation'
holds turning.apng "65584966$(hex upright.exif)"
holds turning.apng 000000086163544c0000000300000000ceedbac0

# The profile, the Exif data and the XMP data: each in a file of its own, with the picture or without it.
{ boxed; printf '\0\0\0\021Exif\0\0\0\0II*\0\0'; whole; printf '\0\0\0\014xml <x/>'; } > data.jxl
expect 0 'jxldec: profile.jxl: colour profile left out' profile.jxl -o p.pgm
expect 0 - profile.jxl -o q.pgm --icc p.icc
cmp -s p.pgm q.pgm
judge $? 'the picture is not what it is without --icc'
test "$(cksum < p.icc)" = '2523711988 416'
judge $? "the profile is not that of the file: $(cksum < p.icc)"
rm p.icc
expect 0 - profile.jxl --icc p.icc
test "$(cksum < p.icc)$(cat out)" = '2523711988 416'
judge $? 'without -o, --icc does not write the profile alone'
expect 0 - profile.jxl --icc p.icc -o -
begins out P5
expect 0 - profile.jxl --info --icc q.icc
begins out 'JPEG XL image, 16x16'
cmp -s p.icc q.icc
judge $? 'with --info the profile is another one'
expect 0 - data.jxl --exif d.exif --xmp d.xmp
test "$(cksum < d.exif)$(cat d.xmp out)" = "$(printf 'II*\0\0' | cksum)<x/>"
judge $? 'the Exif or XMP data are not those of the file'
expect 0 - data.jxl -o d.ppm --xmp d2.xmp
cmp -s d.xmp d2.xmp
judge $? 'with -o the XMP data are others'
cmp -s d.ppm whole.ppm
judge $? 'with --xmp the picture is another one'
# If the file lacks some of them, the others are written, and the line says which it lacks.
expect 1 'jxldec: whole.jxl: no colour profile' whole.jxl -o some.ppm --icc none.icc
cmp -s some.ppm whole.ppm
judge $? 'the picture is another one if its profile is missing'
expect 1 'jxldec: whole.jxl: no Exif data' whole.jxl -o some.ppm --exif none.exif
expect 1 'jxldec: whole.jxl: no XMP data' whole.jxl -o some.ppm --xmp none.xmp
expect 1 'jxldec: whole.jxl: no colour profile, no Exif data, no XMP data' whole.jxl --exif none.exif --icc none.icc --xmp none.xmp
expect 1 'jxldec: whole.jxl: no colour profile, no XMP data' whole.jxl -q --icc none.icc --xmp none.xmp
expect 1 'jxldec: data.jxl: no colour profile' data.jxl --exif some.exif --icc none.icc --xmp some.xmp
cmp -s some.exif d.exif && cmp -s some.xmp d.xmp
judge $? 'the Exif and XMP data are others if the profile is missing'
expect 1 'jxldec: profile.jxl: colour profile left out
jxldec: profile.jxl: no Exif data' profile.jxl -o some.pgm --exif none.exif
cmp -s some.pgm p.pgm
judge $? 'the picture is another one if its Exif data are missing'
expect 1 'jxldec: profile.jxl: no Exif data' profile.jxl -o some.pgm --exif none.exif --icc some.icc
cmp -s some.icc p.icc
judge $? 'the profile is another one if the Exif data are missing'
expect 1 'jxldec: lossy.jxl: not supported: a lossy picture (XYB)' lossy.jxl --icc none.icc
expect 1 'jxldec: lossy.jxl: no Exif data' lossy.jxl --exif none.exif
expect 1 'jxldec: other.jxl: not a JPEG XL file' other.jxl --xmp none.xmp
expect 0 - lossy.jxl --info
for name in none.icc none.exif none.xmp; do
    absent $name
done
# Data of no bytes: their files are made, and one that exists is emptied.
{ boxed; printf '\0\0\0\014Exif\0\0\0\0\0\0\0\010xml '; whole; } > nothing.jxl
printf 'old' > empty.xmp
expect 0 - nothing.jxl --exif empty.exif --xmp empty.xmp
test -f empty.exif && test ! -s empty.exif && test ! -s empty.xmp
judge $? 'the files of Exif and XMP data of no bytes are not empty'
expect 1 'jxldec: folder: cannot write: Is a directory (os error 21)' profile.jxl --icc folder
expect 2 'error: ' profile.jxl --icc

# One file for the input and an output, or for two outputs, by any of its names: nothing is read or written.
cp profile.jxl same.jxl
ln same.jxl link.jxl
ln -s same.jxl soft.jxl
for name in same.jxl ./same.jxl link.jxl soft.jxl; do
    expect 1 "jxldec: $name: the input and this output are one file" same.jxl --format pgm -o $name
    expect 1 "jxldec: $name: the input and this output are one file" same.jxl --icc $name
    cmp -s same.jxl profile.jxl
    judge $? 'the input was changed'
done
expect 1 'jxldec: x.pgm: two outputs are one file' profile.jxl -o x.pgm --icc x.pgm
expect 1 'jxldec: ./x.pgm: two outputs are one file' profile.jxl -o x.pgm --icc ./x.pgm
expect 1 'jxldec: x.pgm: two outputs are one file' data.jxl --exif x.pgm --xmp x.pgm
absent x.pgm
printf 'kept' > x.pgm
ln x.pgm y.pgm
expect 1 'jxldec: y.pgm: two outputs are one file' profile.jxl -o x.pgm --icc y.pgm
begins x.pgm kept
if [ -c /dev/null ]; then
    expect 0 - profile.jxl -o /dev/null --format pgm --icc /dev/null
fi

# Input that begins as no JPEG XL file is not read further: these have no end.
if [ -c /dev/zero ]; then
    expect 1 'jxldec: /dev/zero: not a JPEG XL file' /dev/zero -o b.ppm
    expect 1 'jxldec: /dev/zero: not a JPEG XL file' /dev/zero --info
    expect 1 'jxldec: /dev/zero: not a JPEG XL file' /dev/zero --frames 'b%d.ppm'
    input=/dev/zero
    expect 1 'jxldec: -: not a JPEG XL file' - -o b.ppm
    input=/dev/null
    absent b.ppm
fi

# Control characters of a name are written by their codes; a name that is not UTF-8 is refused.
named=$(printf 'a\033[31mb\nc')
expect 1 'jxldec: a\x1b[31mb\x0ac: cannot read: No such file or directory (os error 2)' "$named"
cp spot.jxl "$named"
expect 0 'jxldec: a\x1b[31mb\x0ac: channels left out: Depth Spotcolor' "$named" -o b.ppm
expect 2 'jxldec: the name of argument 2 is not UTF-8' -q "$(printf 'a\377.jxl')"
expect 2 'jxldec: the name of argument 3 is not UTF-8' ball.jxl -o "$(printf '\300.pgm')"

# A terminal gets no picture that was not asked for, but text, and what the headers tell.
if script -qec true /dev/null > /dev/null 2>&1; then
    script -qec "$program ball.jxl" shown > /dev/null
    grep -q 'jxldec: standard output: a terminal; -o OUT writes to a file, -o - to standard output' shown
    judge $? 'a picture was written to a terminal'
    script -qec "$program ball.jxl --format text" shown > /dev/null
    grep -q 'channel 0 64x32' shown
    judge $? 'text was not written to a terminal'
    script -qec "$program ball.jxl --info" shown > /dev/null
    grep -q 'Orientation: 1' shown
    judge $? 'what the headers tell was not written to a terminal'
fi

# Files that cannot be read or decoded: an output that exists keeps its contents.
printf 'kept' > b.pgm
expect 1 'jxldec: none.jxl: cannot read: No such file or directory (os error 2)' none.jxl -o b.pgm
expect 1 'jxldec: folder: cannot read: Is a directory (os error 21)' folder -o b.pgm
expect 1 'jxldec: other.jxl: not a JPEG XL file' other.jxl -o b.pgm
expect 1 'jxldec: empty.jxl: not a JPEG XL file' empty.jxl -o b.pgm
expect 1 'jxldec: other.jxl: not a JPEG XL file' other.jxl --info
expect 1 'jxldec: short.jxl: section 0 is truncated' short.jxl -o b.pgm
expect 1 'jxldec: other.jxl: not a JPEG XL file' other.jxl -q -o b.pgm
expect 1 'jxldec: header.jxl: image header: bitstream error: unexpected end of input' header.jxl -o b.pgm
expect 1 'jxldec: header.jxl: image header: bitstream error: unexpected end of input' header.jxl --info
expect 1 'jxldec: boxes.jxl: no codestream' boxes.jxl --info
expect 1 'jxldec: lossy.jxl: not supported: a lossy picture (XYB)' lossy.jxl -o b.pgm
expect 0 - lossy.jxl --info
test "$(tail -n 1 out)" = 'not supported: a lossy picture (XYB)'
judge $? '--info does not say why a lossy picture is not decoded'
expect 0 - short.jxl --info
test "$(tail -n 1 out)" = 'section 0 is truncated'
judge $? '--info does not say that a section is truncated'
expect 1 'jxldec: -: not a JPEG XL file' - -o b.pgm
begins b.pgm kept
expect 2 'error: ' -o b.pgm
expect 2 'error: ' ball.jxl other.jxl
expect 2 'error: ' ball.jxl --depth 8
begins b.pgm kept

# Limits.
limits='a picture above the limits: 64x32 with 0 extra channels'
expect 1 "jxldec: ball.jxl: $limits (maximum: 2047 pixels, 256 channels, 2147483648 bytes of samples)" ball.jxl --max-pixels 2047
expect 0 - ball.jxl --max-pixels 2048
expect 1 "jxldec: ball.jxl: $limits (maximum: 268435456 pixels, 256 channels, 8191 bytes of samples)" ball.jxl --max-bytes 8191
expect 0 - ball.jxl --max-bytes 8192
expect 1 "jxldec: ball.jxl: $limits (maximum: 2048 pixels, 256 channels, 8191 bytes of samples)" ball.jxl --max-pixels 2048 --max-bytes 8191
expect 0 - ball.jxl --max-pixels 2048 --max-bytes 8192
expect 1 'jxldec: chain.jxl: global tree: more decisions than the limit' chain.jxl --max-decisions 0
expect 0 - chain.jxl --max-decisions 1
expect 1 'jxldec: own.jxl: codes of sections: more codewords than the limit' own.jxl --max-codewords 0
expect 0 - own.jxl --max-codewords 1
expect 1 'jxldec: own.jxl: codes of sections: more codewords than the limit' own.jxl --max-codewords 0 --max-decisions 0
expect 1 'jxldec: own.jxl: tree of a section: more decisions than the limit' own.jxl --max-decisions 0
expect 0 - --help
grep -q 'max-decisions.*default: 128' out
judge $? 'the help does not say the default of --max-decisions'
grep -q 'max-codewords.*default: 67108864' out
judge $? 'the help does not say the default of --max-codewords'
grep -q 'max-pixels.*default: 268435456' out
judge $? 'the help does not say the default of --max-pixels'
grep -q 'max-bytes.*default: 2147483648' out
judge $? 'the help does not say the default of --max-bytes'
expect 2 "error: invalid value 'many'" ball.jxl --max-bytes many
expect 2 "error: invalid value 'many'" ball.jxl --max-pixels many
expect 2 "error: invalid value 'many'" ball.jxl --max-decisions many
expect 2 "error: invalid value 'many'" ball.jxl --max-codewords many
expect 2 "error: " ball.jxl --max-pixels -1

# Outputs that cannot be written.
expect 1 'jxldec: folder: cannot write: Is a directory (os error 21)' ball.jxl -o folder
expect 1 'jxldec: none/b.pgm: cannot write: No such file or directory (os error 2)' ball.jxl -o none/b.pgm
if [ -e /dev/full ]; then
    expect 1 'jxldec: /dev/full: cannot write: No space left on device (os error 28)' ball.jxl -o /dev/full
    "$program" ball.jxl > /dev/full 2> err
    test "$?$(cat err)" = '1jxldec: standard output: cannot write: No space left on device (os error 28)'
    judge $? "standard output that is full -> $(cat err)"
    "$program" --help > /dev/full 2> err
    test "$?$(cat err)" = '1jxldec: standard output: cannot write: No space left on device (os error 28)'
    judge $? "help on standard output that is full -> $(cat err)"
fi

# A pipe that is closed before the program writes: status 1, and silence.
{
    sleep 1
    "$program" ball.jxl 2> err
    echo $? > status
} | true
test "$(cat status)$(cat err)" = 1
judge $? "a closed pipe -> $(cat status): $(cat err)"

# The encoder.
encode_rows() {
    decoder=$program
    program=$encoder
    printf 'P5\n3 2\n255\n\001\002\003\004\005\006' > grey.pgm
    printf 'P6\n2 1\n255\n\001\002\003\004\005\006' > rgb.ppm
    printf 'P7\nWIDTH 2\nHEIGHT 1\nDEPTH 2\nMAXVAL 65535\nTUPLTYPE GRAYSCALE_ALPHA\nENDHDR\n\001\002\003\004\005\006\007\010' > alpha.pam
    printf 'Pf\n1 2\n-1.0\n\000\000\200\077\000\000\300\177' > float.pfm

    # Round trips, at each effort, by files and by standard input and output.
    for name in grey.pgm rgb.ppm alpha.pam float.pfm; do
        for effort in fast usual best; do
            expect 0 - $name -e $effort -o a.jxl
            "$decoder" a.jxl -o "again.$name" && cmp -s $name "again.$name"
            judge $? "$name at effort $effort is not decoded to what it was"
        done
    done
    expect 0 - grey.pgm -o b.jxl
    cp b.jxl grey.jxl
    expect 0 - grey.pgm --output b.other -q
    cmp -s b.other grey.jxl
    judge $? 'the ending of the output changes the file'
    expect 0 - grey.pgm --effort usual
    cmp -s out grey.jxl
    judge $? 'usual is not the default effort'
    expect 0 - grey.pgm -o -
    cmp -s out grey.jxl
    judge $? 'standard output gets another file'
    absent ./-
    input=grey.pgm
    expect 0 - - -o c.jxl
    cmp -s c.jxl grey.jxl
    judge $? 'standard input is encoded otherwise'
    input=/dev/null
    cp grey.pgm ./-x.pgm
    expect 0 - -o c.jxl -- -x.pgm
    expect 0 - -h
    begins out 'Encodes a PNG or netpbm picture'
    expect 0 - --help
    begins out 'Encodes a PNG or netpbm picture'
    expect 0 - -V
    begins out 'jxlenc '
    expect 0 - --version
    { cat grey.pgm; printf 'more'; } > more.pgm
    expect 0 - more.pgm -o c.jxl
    cmp -s c.jxl grey.jxl
    judge $? 'bytes after the samples change the file'

    # Grey of 3 bits, scaled: each is the nearest to a seventh of 255.
    expect 0 - grey3.png -o c.jxl
    "$decoder" c.jxl -o again.pgm
    printf 'P5\n8 1\n255\n\000\044\111\155\222\266\333\377' | cmp -s - again.pgm
    judge $? 'grey of 3 bits is not scaled by sevenths'

    # Noise of 16 values that repeats: 64 by 16 samples, 16 times. If no token is copied, each of the 16,384 samples takes 4 bits.
    noise=$(for n in 0 1 2 3 4 5 6 7 8 9; do for m in 0 1 2; do printf %s "$n$m" | md5sum | head -c 32; done; done
        for n in 0 1; do printf %s "$n" | md5sum | head -c 32; done)
    { printf 'P5\n64 256\n255\n'; for n in 1 2 3 4 5 6 7 8 9 10 11 12 13 14 15 16; do printf %s "$noise"; done; } > repeated.pgm
    for effort in usual best; do
        expect 0 - repeated.pgm --effort $effort -o c.jxl
        test "$(wc -c < c.jxl)" -lt 4096
        judge $? "noise that repeats is not copied at effort $effort: $(wc -c < c.jxl) bytes, 8,192 without copies"
        "$decoder" c.jxl -o again.pgm && cmp -s repeated.pgm again.pgm
        judge $? "noise that repeats is another picture at effort $effort"
    done

    # A slope with noise in three channels of 64 by 64 samples. The numbers below 256 are the high bytes, and their squares modulo 199 the
    # low bytes. If no channel has a palette, each sample takes some seven bits more.
    state=1
    { printf 'P6\n64 64\n65535\n'
        y=0
        while [ $y -lt 64 ]; do
            row=
            x=0
            while [ $x -lt 192 ]; do
                state=$(((state * 75 + 74) % 65537))
                number=$((x % 3 * 40 + x / 3 + y + state % 4))
                square=$((number * number % 199))
                row="$row\\$((number / 64))$((number / 8 % 8))$((number % 8))"
                row="$row\\$((square / 64))$((square / 8 % 8))$((square % 8))"
                x=$((x + 1))
            done
            printf "$row"
            y=$((y + 1))
        done; } > ranks.ppm
    for effort in fast usual best; do
        expect 0 - ranks.ppm --effort $effort -o c.jxl
        test "$(wc -c < c.jxl)" -lt 8000
        judge $? "no palette of each channel at effort $effort: $(wc -c < c.jxl) bytes, 12,800 and more without"
        "$decoder" c.jxl -o again.ppm && cmp -s ranks.ppm again.ppm
        judge $? "a picture with a palette of each channel is another one at effort $effort"
    done

    # Boxes, Exif data and XMP data.
    expect 0 - grey.pgm --container -o c.jxl
    test "$(head -c 8 c.jxl | tail -c 4)" = 'JXL '
    judge $? '--container does not write boxes'
    "$decoder" c.jxl -o again.pgm && cmp -s grey.pgm again.pgm
    judge $? 'the picture in boxes is another one'
    printf 'II*\0\0' > in.exif
    printf '<x/>' > in.xmp
    : > none.data
    expect 0 - grey.pgm --exif in.exif --xmp in.xmp -o c.jxl
    "$decoder" c.jxl -o again.pgm --exif out.exif --xmp out.xmp && cmp -s grey.pgm again.pgm && cmp -s in.exif out.exif &&
        cmp -s in.xmp out.xmp
    judge $? 'the picture or its Exif or XMP data are not what they were'
    # What precedes the TIFF header in a JPEG file is taken off.
    { printf 'Exif\0\0'; cat in.exif; } > jpeg.exif
    expect 0 - grey.pgm --exif jpeg.exif -o c.jxl
    "$decoder" c.jxl --exif out.exif && cmp -s in.exif out.exif
    judge $? 'Exif data of a JPEG file do not begin at their TIFF header'
    expect 0 - grey.pgm --xmp none.data -o c.jxl
    rm -f out.xmp
    "$decoder" c.jxl --xmp out.xmp && test ! -s out.xmp
    judge $? 'XMP data without a byte are not what they were'
    expect 1 'jxlenc: none.exif: cannot read: No such file or directory (os error 2)' grey.pgm --exif none.exif -o d.jxl
    expect 1 'jxlenc: folder: cannot read: Is a directory (os error 21)' grey.pgm --exif in.exif --xmp folder -o d.jxl
    absent d.jxl
    expect 2 'error: ' grey.pgm -o d.jxl --exif

    # Profiles: p.icc is that of a file of cjxl. Only one above 2^22 bytes needs level 10, in boxes.
    expect 0 - grey.pgm --icc p.icc -o c.jxl
    test "$(head -c 2 c.jxl | od -An -tx1)" = ' ff 0a'
    judge $? 'a picture with a profile is not a bare codestream'
    "$decoder" c.jxl -o again.pgm --icc out.icc && cmp -s grey.pgm again.pgm && cmp -s p.icc out.icc
    judge $? 'the picture or its profile is not what it was'
    "$decoder" c.jxl --info > out
    grep -q '^Color space: Grayscale, ICC profile$' out
    judge $? 'the header of a picture with a profile does not signal it'
    expect 0 - grey.pgm --icc p.icc --exif in.exif --xmp in.xmp -o c.jxl
    "$decoder" c.jxl --icc out.icc --exif out.exif --xmp out.xmp && cmp -s p.icc out.icc && cmp -s in.exif out.exif &&
        cmp -s in.xmp out.xmp
    judge $? 'a profile, Exif and XMP data are not what they were'
    { printf '\0\100\0\0'; head -c 12 /dev/zero; printf 'GRAY'; head -c 16 /dev/zero; printf 'acsp'; head -c 4194264 /dev/zero; } > five.icc
    { printf '\0\100\0\001'; tail -c 4194300 five.icc; printf 'x'; } > ten.icc
    for name in five ten; do
        expect 0 - grey.pgm -e fast --icc $name.icc -o $name.jxl
        "$decoder" $name.jxl --icc out.icc && cmp -s $name.icc out.icc
        judge $? "$name.icc is not what it was"
    done
    test "$(head -c 2 five.jxl | od -An -tx1)" = ' ff 0a'
    judge $? 'a profile of 2^22 bytes is not at level 5'
    test "$(head -c 41 ten.jxl | tail -c 5 | od -An -tx1)" = ' 6a 78 6c 6c 0a'
    judge $? 'a profile above 2^22 bytes is not at level 10'
    expect 1 'jxlenc: none.icc: cannot read: No such file or directory (os error 2)' grey.pgm --icc none.icc -o d.jxl
    expect 1 'jxlenc: folder: cannot read: Is a directory (os error 21)' grey.pgm --icc folder -o d.jxl
    expect 1 'jxlenc: none.data: a profile of 0 bytes or above 268435456' grey.pgm --icc none.data -o d.jxl
    # Profiles whose header does not suit: another text, one that ends in its header, one byte less and one more, `acsp` in other letters, and
    # one of grey beside red, green and blue.
    printf 'no profile' > text.icc
    head -c 127 p.icc > header.icc
    head -c "$(($(wc -c < p.icc) - 1))" p.icc > less.icc
    { cat p.icc; printf '\0'; } > more.icc
    { head -c 36 p.icc; printf 'ACSP'; tail -c +41 p.icc; } > other.icc
    for name in text header other; do
        expect 1 "jxlenc: $name.icc: not an ICC profile" grey.pgm --icc $name.icc -o d.jxl
    done
    for name in less more; do
        expect 1 "jxlenc: $name.icc: a profile whose header says another size" grey.pgm --icc $name.icc -o d.jxl
    done
    expect 1 "jxlenc: p.icc: a profile of another colour space than the picture's" rgb.ppm --icc p.icc -o d.jxl
    expect 1 'jxlenc: none.icc: cannot read: No such file or directory (os error 2)' grey.pgm --icc none.icc --exif none.exif -o d.jxl
    absent d.jxl
    expect 2 'error: ' grey.pgm -o d.jxl --icc

    # PNG files, which python's zlib made: the same pictures as above; of 1 bit; of a palette; and with Exif and XMP data.
    printf '\211\120\116\107\015\012\032\012\000\000\000\015\111\110\104\122\000\000\000\003\000\000\000\002\010\000\000\000\000\270\037\071\306\000\000\000\020\111\104\101\124\170\332\143\140\144\142\146\140\141\145\003\000\000\106\000\026\237\364\147\360\000\000\000\000\111\105\116\104\256\102\140\202' > grey.png
    printf '\211\120\116\107\015\012\032\012\000\000\000\015\111\110\104\122\000\000\000\002\000\000\000\001\010\002\000\000\000\173\100\350\335\000\000\000\017\111\104\101\124\170\332\143\140\144\142\146\141\145\003\000\000\077\000\026\230\301\150\023\000\000\000\000\111\105\116\104\256\102\140\202' > rgb.png
    printf '\211\120\116\107\015\012\032\012\000\000\000\015\111\110\104\122\000\000\000\002\000\000\000\001\020\004\000\000\000\016\273\153\102\000\000\000\021\111\104\101\124\170\332\143\140\144\142\146\141\145\143\347\000\000\000\201\000\045\345\232\117\201\000\000\000\000\111\105\116\104\256\102\140\202' > alpha.png
    printf '\211\120\116\107\015\012\032\012\000\000\000\015\111\110\104\122\000\000\000\011\000\000\000\002\001\000\000\000\000\242\055\313\176\000\000\000\016\111\104\101\124\170\332\143\330\324\300\340\313\000\000\006\032\001\200\114\177\144\204\000\000\000\000\111\105\116\104\256\102\140\202' > two.png
    printf '\211\120\116\107\015\012\032\012\000\000\000\015\111\110\104\122\000\000\000\004\000\000\000\001\002\003\000\000\000\204\122\347\136\000\000\000\014\120\114\124\105\001\002\003\004\005\006\007\010\011\012\013\014\334\143\067\254\000\000\000\012\111\104\101\124\170\332\143\220\006\000\000\035\000\034\043\174\217\254\000\000\000\000\111\105\116\104\256\102\140\202' > palette.png
    printf '\211\120\116\107\015\012\032\012\000\000\000\015\111\110\104\122\000\000\000\003\000\000\000\002\010\000\000\000\000\270\037\071\306\000\000\000\005\145\130\111\146\111\111\052\000\000\377\045\012\142\000\000\000\032\151\124\130\164\130\115\114\072\143\157\155\056\141\144\157\142\145\056\170\155\160\000\000\000\000\000\074\170\057\076\226\247\167\143\000\000\000\020\111\104\101\124\170\332\143\140\144\142\146\140\141\145\003\000\000\106\000\026\237\364\147\360\000\000\000\000\111\105\116\104\256\102\140\202' > data.png
    printf '\211\120\116\107\015\012\032\012\000\000\000\015\111\110\104\122\000\000\000\004\000\000\000\001\002\003\000\000\000\204\122\347\136\000\000\000\011\120\114\124\105\001\002\003\004\005\006\007\010\011\045\205\126\360\000\000\000\012\111\104\101\124\170\332\143\220\006\000\000\035\000\034\043\174\217\254\000\000\000\000\111\105\116\104\256\102\140\202' > index.png
    printf '\211\120\116\107\015\012\032\012\000\000\000\015\111\110\104\122\000\000\000\003\000\000\000\002\010\000\000\000\000\270\037\071\306\000\000\000\020\111\104\101\124\170\332\143\140\144\142\146\140\141' > short.png
    printf '\211\120\116\107\015\012\032\012\000\000\000\015\111\110\104\122\000\000\000\003\000\000\000\002\010\000\000\000\000\270\037\071\306\000\000\000\020\111\104\101\124\170\332\143\140\144\142\146\140\141\145\003\000\000\106\000\026\237\364\147\360\000\000\000\000\111\105\116\104\256\102\140\203' > crc.png
    printf '\211\120\116\107\015\012\032\012\000\000\000\015\111\110\104\122\000\000\000\003\000\000\000\002\010\000\000\000\000\270\037\071\306\000\000\000\020\111\104\101\124\170\332\143\140\144\142\146\140\141\145\003\000\000\106\000\027\350\363\127\146\000\000\000\000\111\105\116\104\256\102\140\202' > adler.png
    printf '\211\120\116\107\015\012\032\012\000\000\000\015\111\110\104\122\000\000\000\003\000\000\000\002\010\000\000\000\000\270\037\071\306\000\000\000\017\111\104\101\124\170\332\143\140\144\142\146\140\141\005\000\000\060\000\020\224\102\115\213\000\000\000\000\111\105\116\104\256\102\140\202' > few.png
    printf '\211\120\116\107\015\012\032\012\000\000\000\015\111\110\104\122\000\020\000\000\000\020\000\000\001\000\000\000\000\143\123\235\150\000\000\000\010\111\104\101\124\170\332\003\000\000\000\000\001\157\335\311\221\000\000\000\000\111\105\116\104\256\102\140\202' > huge.png
    printf 'P5\n9 2\n1\n\001\000\001\001\000\000\001\000\001\000\001\000\000\001\001\000\001\000' > two.pgm
    printf 'P6\n4 1\n255\n\001\002\003\004\005\006\007\010\011\012\013\014' > palette.ppm
    for pair in 'grey pgm' 'rgb ppm' 'alpha pam' 'two pgm' 'palette ppm'; do
        name=${pair% *}
        expect 0 - "$name.png" -o c.jxl
        "$decoder" c.jxl -o "again.${pair#* }" && cmp -s "$name.${pair#* }" "again.${pair#* }"
        judge $? "the picture of $name.png is another one"
    done
    input=grey.png
    expect 0 - - -o c.jxl
    cmp -s c.jxl grey.jxl
    judge $? 'a PNG file on standard input is encoded otherwise than the same picture in PGM'
    input=/dev/null
    expect 0 - data.png -o c.jxl
    rm -f out.exif out.xmp
    "$decoder" c.jxl --exif out.exif --xmp out.xmp && cmp -s in.exif out.exif && cmp -s in.xmp out.xmp
    judge $? 'the Exif or XMP data of a PNG file are not kept'
    printf 'MM' > other.exif
    expect 0 - data.png --exif other.exif -o c.jxl
    "$decoder" c.jxl --exif out.exif --xmp out.xmp && cmp -s other.exif out.exif && cmp -s in.xmp out.xmp
    judge $? '--exif does not replace the Exif data of a PNG file, or the XMP data are not kept'
    expect 0 - data.png --icc p.icc -o c.jxl
    "$decoder" c.jxl -o again.pgm --icc out.icc --exif out.exif && cmp -s grey.pgm again.pgm && cmp -s p.icc out.icc && cmp -s in.exif out.exif
    judge $? 'a PNG file does not get the profile of --icc, or its Exif data are not kept'
    expect 1 'jxlenc: short.png: truncated' short.png -o d.jxl
    expect 1 'jxlenc: crc.png: wrong CRC' crc.png -o d.jxl
    expect 1 'jxlenc: adler.png: wrong checksum' adler.png -o d.jxl
    expect 1 'jxlenc: few.png: too little data' few.png -o d.jxl
    expect 1 'jxlenc: index.png: index above the palette' index.png -o d.jxl
    expect 1 'jxlenc: huge.png: above the limits' huge.png -o d.jxl
    absent d.jxl

    # The PNG file of the grey picture with an orientation in Exif data, and how it is shown: turned ORIENTATION CRC SIDES SAMPLES KEPT.
    # Bytes are written as for printf '%b'; KEPT is the orientation in the Exif data of the .jxl file.
    tiff='MM\0000\0052\0000\0000\0000\0010\0000\0001\0001\0022\0000\0003\0000\0000\0000\0001\0000'
    rest='\0000\0000\0000\0000\0000\0000'
    turned() {
        { head -c 33 grey.png; printf '%b' "\0000\0000\0000\0032eXIf$tiff$1$rest$2"; tail -c +34 grey.png; } > turned.png
        printf '%b' "P5\n$3\n255\n$4" > turned.pgm
        printf '%b' "$tiff$5$rest" > kept.exif
        expect 0 - turned.png -o c.jxl
        "$decoder" c.jxl -o again.pgm --exif out.exif && cmp -s turned.pgm again.pgm && cmp -s kept.exif out.exif
        judge $? "a PNG file with orientation $1 is shown otherwise, or has other Exif data"
    }
    turned '\0001' '\0023\0300\0165\0347' '3 2' '\0001\0002\0003\0004\0005\0006' '\0001'
    turned '\0002' '\0042\0050\0157\0172' '3 2' '\0003\0002\0001\0006\0005\0004' '\0001'
    turned '\0003' '\0204\0137\0144\0316' '3 2' '\0006\0005\0004\0003\0002\0001' '\0001'
    turned '\0004' '\0101\0370\0132\0100' '3 2' '\0004\0005\0006\0001\0002\0003' '\0001'
    turned '\0005' '\0347\0217\0121\0364' '2 3' '\0001\0004\0002\0005\0003\0006' '\0001'
    turned '\0006' '\0326\0147\0113\0151' '2 3' '\0004\0001\0005\0002\0006\0003' '\0001'
    "$decoder" c.jxl --info | grep -q '^Orientation: 6 '
    judge $? 'the header does not have the orientation of the Exif data'
    turned '\0007' '\0160\0020\0100\0335' '2 3' '\0006\0003\0005\0002\0004\0001' '\0001'
    turned '\0010' '\0206\0130\0060\0064' '2 3' '\0003\0006\0002\0005\0001\0004' '\0001'
    turned '\0011' '\0040\0057\0073\0200' '3 2' '\0001\0002\0003\0004\0005\0006' '\0011'
    printf 'II\052\000\010\000\000\000\001\000\022\001\003\000\001\000\000\000\010\000\000\000\000\000\000\000' > turn.exif
    printf 'II\052\000\010\000\000\000\001\000\022\001\003\000\001\000\000\000\001\000\000\000\000\000\000\000' > upright.exif
    printf 'P5\n2 3\n255\n\003\006\002\005\001\004' > turned.pgm
    expect 0 - grey.pgm --exif turn.exif -o c.jxl
    "$decoder" c.jxl -o again.pgm --exif out.exif && cmp -s turned.pgm again.pgm && cmp -s upright.exif out.exif
    judge $? 'the orientation in the data of --exif is not that of the picture'

    # PNG files that jxldec writes are encoded to the same pictures, with the profile, Exif and XMP data.
    for pair in 'grey pgm' 'rgb ppm' 'alpha pam' 'two pgm'; do
        name=${pair% *}.${pair#* }
        "$encoder" "$name" -o c.jxl && "$decoder" c.jxl -o c.png && "$encoder" c.png -o d.jxl && "$decoder" d.jxl -o "again.${pair#* }"
        judge $? "$name does not go through PNG"
        cmp -s "$name" "again.${pair#* }"
        judge $? "$name is another picture after it went through PNG"
    done
    rm -f d.jxl
    "$encoder" grey.pgm --icc p.icc --exif in.exif --xmp in.xmp -o c.jxl && "$decoder" c.jxl --format png > c.png && "$encoder" c.png -o e.jxl &&
        "$decoder" e.jxl -o again.pgm --icc out.icc --exif out.exif --xmp out.xmp
    judge $? 'a picture with profile, Exif and XMP data does not go through PNG'
    cmp -s grey.pgm again.pgm && cmp -s p.icc out.icc && cmp -s in.exif out.exif && cmp -s in.xmp out.xmp
    judge $? 'a picture, its profile, Exif or XMP data are others after they went through PNG'
    "$decoder" c.jxl -o c.png 2> err && test ! -s err
    judge $? 'jxldec warns of a profile that PNG holds'
    "$encoder" float.pfm -o c.jxl
    "$decoder" c.jxl -o none.png 2> err
    test "$?$(cat err)" = '1jxldec: c.jxl: this format cannot hold the picture; --format text can'
    judge $? 'jxldec writes floats to PNG'
    absent none.png

    # Pictures that cannot be read: an output that exists keeps its contents.
    printf 'kept' > b.jxl
    printf 'P5\n3 2\n255\n\001\002\003\004\005' > short.pgm
    printf 'P5\n3 2\n' > header.pgm
    printf 'P5\n1073741824 1073741824\n255\n' > huge.pgm
    printf 'P5\n1073741825 1\n255\n' > wide.pgm
    printf 'P5\n99999999999999999999 1\n255\n' > wider.pgm
    printf 'P5\n0 1\n255\n' > narrow.pgm
    printf 'P5\n3 2\n200\n\001\002\003\004\005\006' > maximum.pgm
    printf 'P5\n1 1\n65536\n\001\002' > deep.pgm
    printf 'P5\n2 1\n127\n\177\200' > above.pgm
    printf 'P5\nx 1\n255\n\001' > word.pgm
    printf 'P4\n8 1\n\001' > bits.pbm
    printf 'P2\n1 1\n255\n1\n' > plain.pgm
    printf 'P7\nWIDTH 1\nHEIGHT 1\nDEPTH 1\nENDHDR\n\001' > lines.pam
    printf 'P7\nWIDTH 1\nHEIGHT 1\nDEPTH 4\nMAXVAL 255\nTUPLTYPE CMYK\nENDHDR\n\001\002\003\004' > cmyk.pam
    printf 'P7\nWIDTH 1\nHEIGHT 1\nDEPTH 5\nMAXVAL 255\nENDHDR\n\001\002\003\004\005' > five.pam
    printf 'P7\nWIDTH 1\nHEIGHT 1\nDEPTH 3\nMAXVAL 255\nTUPLTYPE GRAYSCALE\nENDHDR\n\001\002\003' > depth.pam
    printf 'Pf\n1 1\none\n\001\002\003\004' > scale.pfm
    expect 1 'jxlenc: none.pgm: cannot read: No such file or directory (os error 2)' none.pgm -o b.jxl
    expect 1 'jxlenc: folder: cannot read: Is a directory (os error 21)' folder -o b.jxl
    for name in other.jxl empty.jxl grey.jxl bits.pbm plain.pgm; do
        expect 1 "jxlenc: $name: not a PNG, PGM, PPM, PAM or PFM file" $name -o b.jxl
    done
    for name in short.pgm header.pgm huge.pgm; do
        expect 1 "jxlenc: $name: truncated" $name -o b.jxl
    done
    for name in wide.pgm wider.pgm narrow.pgm; do
        expect 1 "jxlenc: $name: a width or height of 0 or above 1073741824" $name -o b.jxl
    done
    for name in maximum.pgm deep.pgm; do
        expect 1 "jxlenc: $name: not supported: a maximum that is not 2^n - 1 with n from 1 to 16" $name -o b.jxl
    done
    for name in cmyk.pam five.pam depth.pam; do
        expect 1 "jxlenc: $name: not supported: channels of this type or number" $name -o b.jxl
    done
    for name in word.pgm scale.pfm; do
        expect 1 "jxlenc: $name: invalid header" $name -o b.jxl
    done
    expect 1 'jxlenc: lines.pam: invalid header: a line is missing' lines.pam -o b.jxl
    expect 1 'jxlenc: above.pgm: a sample above the maximum' above.pgm -o b.jxl
    expect 1 'jxlenc: above.pgm: a sample above the maximum' above.pgm -q -o b.jxl
    expect 1 'jxlenc: above.pgm: a sample above the maximum' above.pgm --exif none.exif -o b.jxl
    expect 1 'jxlenc: -: not a PNG, PGM, PPM, PAM or PFM file' - -o b.jxl
    begins b.jxl kept
    expect 2 'error: ' -o b.jxl
    expect 2 'error: ' grey.pgm rgb.ppm -o b.jxl
    expect 2 "error: invalid value '9'" grey.pgm -e 9 -o b.jxl
    expect 2 "error: invalid value 'Fast'" grey.pgm -e Fast -o b.jxl
    expect 2 'error: ' grey.pgm --lossy -o b.jxl
    begins b.jxl kept

    # An output that is an input, by its name, another name or a link, is refused before anything is read.
    cp grey.pgm same.pgm
    ln same.pgm hard.pgm
    ln -s same.pgm soft.pgm
    for name in same.pgm ./same.pgm a.b/../same.pgm hard.pgm soft.pgm; do
        expect 1 "jxlenc: $name: an input and this output are one file" same.pgm -o $name
    done
    cmp -s same.pgm grey.pgm
    judge $? 'an input that is the output is changed'
    cp p.icc same.icc
    expect 1 'jxlenc: same.icc: an input and this output are one file' grey.pgm --icc same.icc -o same.icc
    expect 1 'jxlenc: ./in.exif: an input and this output are one file' grey.pgm --exif in.exif -o ./in.exif
    expect 1 'jxlenc: in.xmp: an input and this output are one file' grey.pgm --xmp in.xmp -o in.xmp
    cmp -s same.icc p.icc
    judge $? 'a profile that is the output is changed'

    # Inputs without an end: one that begins as no picture, and one with a picture at its beginning.
    if [ -e /dev/zero ]; then
        expect 1 'jxlenc: /dev/zero: not a PNG, PGM, PPM, PAM or PFM file' /dev/zero -o d.jxl
        cat grey.pgm /dev/zero 2> other | "$program" - -o c.jxl 2> err && cmp -s c.jxl grey.jxl
        judge $? "bytes without an end after the samples -> $(cat err)"
    fi

    # Names that are not UTF-8, or have control characters.
    expect 2 'jxlenc: the name of argument 1 is not UTF-8' "$(printf 'a\377.pgm')" -o d.jxl
    expect 2 'jxlenc: the name of argument 3 is not UTF-8' grey.pgm -o "$(printf '\300.jxl')"
    expect 1 'jxlenc: a\x1bb\x0ac: cannot read: No such file or directory (os error 2)' "$(printf 'a\033b\nc')" -o d.jxl
    absent d.jxl

    # Outputs that cannot be written.
    expect 1 'jxlenc: folder: cannot write: Is a directory (os error 21)' grey.pgm -o folder
    expect 1 'jxlenc: none/b.jxl: cannot write: No such file or directory (os error 2)' grey.pgm -o none/b.jxl
    if [ -e /dev/full ]; then
        expect 1 'jxlenc: /dev/full: cannot write: No space left on device (os error 28)' grey.pgm -o /dev/full
        "$program" grey.pgm > /dev/full 2> err
        test "$?$(cat err)" = '1jxlenc: standard output: cannot write: No space left on device (os error 28)'
        judge $? "standard output that is full -> $(cat err)"
    fi
    {
        sleep 1
        "$program" grey.pgm 2> err
        echo $? > status
    } | true
    test "$(cat status)$(cat err)" = 1
    judge $? "a closed pipe -> $(cat status): $(cat err)"

    # A terminal as standard output, which `script` makes.
    if command -v script > err; then
        script -qec "'$program' grey.pgm 2> err" /dev/null > out < /dev/null
        seen=$?
        test "$seen$(cat err)" = '1jxlenc: standard output: a terminal; -o OUT writes to a file, -o - to standard output' && test ! -s out
        judge $? "a terminal -> $seen: $(cat err)"
    fi
}
if [ -n "$encoder" ]; then
    encode_rows
fi

echo "commands: $right right, $wrong wrong"
test "$wrong" -eq 0
