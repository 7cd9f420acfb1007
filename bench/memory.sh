#!/bin/sh
# How much memory `drink sim` takes for each line of a long script, of one kind of line after the other, and how long the line
# and its answer are: the script is read whole, and what is printed is written when all is done.
# `docs/BENCHMARKS.md` has the figures. It needs a program that is built, awk and GNU time. It fails only where the program
# doesn't run on a script as it is to.
#
#   sh bench/memory.sh [PROGRAM]        PROGRAM is crates/drink/out/drink where it is left out
set -eu
top=$(cd "$(dirname "$0")/.." && pwd)
. "$top/bench/shared/program.sh"
. "$top/bench/shared/sim.sh"

printf 'plan 1 run 1\noffice a -\noffice b -\npair a b fork a\nrecord x a b 0 at a\n' > "$work/plan"
: > "$work/sessions"

# LINE LINES: so many of the line, after a frame that may be delivered.
script() {
    awk -v line="$1" -v lines="$2" 'BEGIN { print "send a b 0"; for (n = 1; n < lines; n++) print line }'
}

script - 1 > "$work/script"
least=$(memory)
printf '| %s | %s | %s | %s | %s | %s |\n' Line Lines 'Memory, KiB' 'For a line, bytes' 'Bytes of its text' 'Bytes of its answer'
for line in 'do a eat' 'advance a 1' 'deliver 1' 'send a b 0'; do
    for lines in 250000 500000 1000000; do
        script "$line" "$lines" > "$work/script"
        prints 'unfinished 0'
        most=$(memory)
        printf '| `%s` | %s | %s | %s | %s | %s |\n' "$line" "$lines" "$most" \
            "$(((most - least) * 1024 / lines))" "$(($(wc -c < "$work/script") / lines))" "$(($(wc -c < "$work/printed") / lines))"
    done
done
