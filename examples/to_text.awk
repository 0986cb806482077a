# Draws the first channel that jxlmod prints in the terminal: # for samples above 127, a space for the others.
# Usage: jxlmod decode 32 16 1 8 i32 < input | awk -f examples/to_text.awk

$1 == "channel" {
    channels++
    next
}

channels == 1 {
    line = ""
    for (x = 1; x <= NF; x++)
        line = line ($x > 127 ? "#" : " ")
    print line
}
