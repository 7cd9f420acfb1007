#!/bin/sh
# Counts the instructions for each byte of a plan that is read: what a run that reads it 12 times has more than one that
# reads it twice. The plan has 16 offices, 120 pairs and 960 records. Needs rt and valgrind.
#
#   sh bench/plan.sh
set -eu
top=$(cd "$(dirname "$0")/.." && pwd)
uses="office_map bottle_values"
. "$top/bench/shared/crate.sh"
plan=$work/plan
awk '
    function name(i) { return substr("abcdefghijklmnop", i, 1) }
    BEGIN {
        print "plan 1 run 1"
        for (i = 1; i <= 16; i++) print "office " name(i) " -"
        for (i = 1; i <= 16; i++) for (j = i + 1; j <= 16; j++) {
            print "pair " name(i) " " name(j) " fork " name(i)
            for (k = 0; k < 8; k++) print "record " name(i) name(j) k " " name(i) " " name(j) " 1 at " name(i)
        }
    }' > "$plan"
bytes=$(wc -c < "$plan" | tr -d ' ')
all=$(instructions 12 "$plan")
none=$(instructions 2 "$plan")
awk -v all="$all" -v none="$none" -v bytes="$bytes" \
    'BEGIN { printf "%d bytes: %.1f instructions for a byte\n", bytes, (all - none) / 10 / bytes }'
