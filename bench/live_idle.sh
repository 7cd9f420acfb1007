#!/bin/sh
# What an office takes of a processor that has nothing to do: `drink run` without sessions, whose neighbour never starts, for 2000
# turns. Needs the program, built, and GNU time.
#
#   sh bench/live_idle.sh [PROGRAM]        PROGRAM is crates/drink/out/drink where it is left out
set -eu
top=$(cd "$(dirname "$0")/.." && pwd)
. "$top/bench/shared/program.sh"
printf 'plan 1 run 9\noffice a 127.0.0.1:47911\noffice b 127.0.0.1:47912\npair a b fork a\nrecord r a b 1 at a\n' > "$work/plan"
: > "$work/sessions"
/usr/bin/time -o "$work/time" -f '%e s of the clock, %U s in the program, %S s in the system' \
    "$program" run "$work/plan" a "$work/sessions"
cat "$work/time"
