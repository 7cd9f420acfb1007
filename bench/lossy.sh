#!/bin/sh
# How many frames are made for a finished session, where a third is lost and the others overtake each other: of two offices for
# three seeds, and of 16 for one. How many sessions a second eight offices finish as processes over a slow network that loses
# datagrams. And what such a script takes, of 16 offices and 960 records: instructions for a line, less the run on an empty script.
# It needs a program that is built, python3, and GNU time; for the counts of instructions valgrind.
#
#   sh bench/lossy.sh [PROGRAM]        PROGRAM is crates/drink/out/drink where it is left out
#
# The long script is written round by round, by what the program answers to it so far, which takes some minutes.
set -eu
top=$(cd "$(dirname "$0")/.." && pwd)
. "$top/bench/shared/program.sh"
. "$top/bench/shared/sim.sh"
for seed in 1 2 3; do
    frames=$(python3 "$top/bench/lossy_frames.py" "$program" 2 "$seed")
    echo "2 offices, seed $seed: $frames"
done
frames=$(python3 "$top/bench/lossy_frames.py" "$program" 16 1)
echo "16 offices, seed 1: $frames"

python3 "$top/bench/lossy_network.py" "$program"

# Of these lines the last ones are left out for the shorter script.
lines=$(python3 "$top/bench/lossy_frames.py" "$program" 16 1 200000 "$work")
cp "$work/script" "$work/whole"
: > "$work/script"
none=$(instructions)
printf '\n| %s | %s | %s | %s |\n' Lines 'Memory, KiB' Instructions 'For a line'
for part in $((lines / 2)) "$lines"; do
    head -n "$part" "$work/whole" > "$work/script"
    all=$(instructions)
    most=$(memory)
    printf '| %s | %s | %s | %s |\n' "$part" "$most" "$all" "$(for_each "$all" "$none" "$part")"
done
