#!/bin/sh
# Writes the sample files. A heading of README.md names one; the rows below it hold its bytes, each at its place.
cd "$(dirname "$0")" && awk -F ' *[|] *' '
    /^### / { file = substr($0, 5); place = 0; print ": >" file }
    $2 ~ /^[0-9]+$/ {
        if ($2 != place) { print "echo README.md:" NR ": place " place ", not " $2 " >&2; exit 1"; exit }
        count = split($3, bytes, " ")
        for (i = 1; i <= count; i++) print "printf \"\\\\$(printf %03o 0x" bytes[i] ")\" >>" file
        place += count
    }' README.md | sh
