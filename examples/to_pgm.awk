# Turns the text that jxlmod prints into a picture file with 8 bits a sample: PGM of one channel, or PPM of three where
# `-v channels=3` is given. Each row goes out as it comes; of three channels the text of the first two is kept.
# Usage: jxlmod decode 256 256 1 8 i32 < input | awk -f examples/to_pgm.awk > picture.pgm

function byte(sample) {
    return sample < 0 ? 0 : sample > 255 ? 255 : sample
}

function fail(message) {
    print "to_pgm.awk: " message > "/dev/stderr"
    failed = 1
    exit 1
}

BEGIN {
    if (channels == "")
        channels = 1
    if (channels != 1 && channels != 3)
        fail("one or three channels")
}

$1 == "channel" {
    if (++channel > channels)
        fail("more than " channels " channels")
    y = 0
    if (channel == channels) {
        split($3, side, "x")
        print channels == 1 ? "P2" : "P3"
        print side[1], side[2]
        print 255
    }
    next
}

channel < channels {
    kept[channel, y++] = $0
    next
}

channels == 1 {
    for (x = 1; x <= NF; x++)
        print byte($x)
    next
}

{
    split(kept[1, y], first)
    split(kept[2, y], second)
    delete kept[1, y]
    delete kept[2, y]
    for (x = 1; x <= NF; x++)
        print byte(first[x]), byte(second[x]), byte($x)
    y++
}

END {
    if (!failed && channel != channels)
        fail("fewer than " channels " channels")
}
