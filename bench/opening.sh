#!/bin/sh
# What it takes to read a plan of 960 records and to open its 16 offices, all neighbours, which share eight records with each other:
# instructions of `drink serial`, which reads the plan, of `drink sim`, which opens the offices, and of `drink live`, which opens them
# at sockets and on threads; all without a session. Once with names of up to eight bytes and once with longer ones. `docs/BENCHMARKS.md`
# has the figures. It needs a program that is built, awk and valgrind. It fails only where the program doesn't run as it is to.
#
#   sh bench/opening.sh [PROGRAM]        PROGRAM is crates/drink/out/drink where it is left out
set -eu
top=$(cd "$(dirname "$0")/.." && pwd)
. "$top/bench/shared/program.sh"

# OFFICE RECORD: the plan, whose names begin so.
plan() {
    awk -v office="$1" -v record="$2" 'BEGIN {
        print "plan 1 run 1"
        for (a = 0; a < 16; a++) print "office " office a " -"
        for (b = 1; b < 16; b++) for (a = 0; a < b; a++) {
            print "pair " office a " " office b " fork " office a
            for (k = 0; k < 8; k++) print "record " record a "_" b "_" k " " office a " " office b " 0 at " office a
        }
    }'
}

# WORD..: the instructions of a run of the program on these words.
instructions() {
    valgrind --tool=callgrind --callgrind-out-file="$work/callgrind" "$program" "$@" > "$work/printed" 2> "$work/log" || {
        cat "$work/log" >&2
        exit 1
    }
    sed -n 's/.*Collected : \([0-9]*\).*/\1/p' "$work/log"
}

: > "$work/sessions"
: > "$work/script"
printf 'plan 1 run 1\noffice a -\noffice b -\n' > "$work/least"
least=$(instructions serial "$work/least" "$work/sessions")
echo "Instructions of a run on the least plan: $least."
echo
printf '| %s | %s | %s | %s | %s | %s |\n' 'Bytes of the plan' '`serial`' '`sim`' 'More, for opening' '`live`' 'More, for opening'
for names in 'o r' 'office_ record_'; do
    set -- $names
    plan "$1" "$2" > "$work/plan"
    reads=$(instructions serial "$work/plan" "$work/sessions")
    opens=$(instructions sim "$work/plan" "$work/sessions" "$work/script")
    binds=$(instructions live "$work/plan" "$work/sessions")
    printf '| %s | %s | %s | %s | %s | %s |\n' "$(wc -c < "$work/plan" | tr -d ' ')" "$reads" "$opens" "$((opens - reads))" "$binds" "$((binds - reads))"
done
