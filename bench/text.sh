#!/bin/sh
# Writes a program of SIZE KiB to standard output: one statement in each KiB, with long names, a short text and a comment, so that 1024
# of them weigh 15,360.
# Usage: text.sh SIZE
set -eu
awk -v size="$1" '
function row(letter, count,   text) { text = ""; while (count-- > 0) text = text letter; return text }
BEGIN {
    target = row("f", 128)
    first = row("a", 128)
    second = row("b", 128)
    actor = row("c", 128)
    front = "SEND " target "(" first ", " second ", \"text\") TO " actor " # "
    for (i = 0; i < size; i++) print front row("x", 1023 - length(front))
}'
