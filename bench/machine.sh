#!/bin/sh
# Counts the instructions of the processor that compiling a session, beginning work on it, working on it in pieces of 256
# and walking its tree take: what a run with 100 of them has more than one without. The sessions are at the limits: loops
# over a sum of two and over one of 32, a loop that reads the last of 16 records, 64 gives, and a loop that joins two texts of
# 32 bytes. Needs rt and valgrind.
#
#   sh bench/machine.sh
set -eu
top=$(cd "$(dirname "$0")/.." && pwd)
uses="session_machine serial_replay session_language session_programs session_meaning office_map bottle_values"
. "$top/bench/shared/crate.sh"
rounds=100

# KIND NODES: how many nodes and statements the session's text has.
row() {
    none=$(instructions "$1" $rounds none)
    of=$((($(instructions "$1" $rounds of) - none) / rounds))
    begin=$((($(instructions "$1" $rounds begin) - none) / rounds))
    pieces=$((($(instructions "$1" $rounds work) - none) / rounds - begin))
    walk=$((($(instructions "$1" $rounds walk) - none) / rounds))
    length=$("$built" "$1" 1 length)
    awk -v kind="$1" -v nodes="$2" -v of="$of" -v begin="$begin" -v pieces="$pieces" -v walk="$walk" -v length_is="$length" 'BEGIN {
        printf "%s: length %d, %.1f for each counted instruction in pieces, %.1f by the walk; begin %d; Code::of %d, %.1f for each node\n",
            kind, length_is, pieces / length_is, walk / length_is, begin, of, of / nodes }'
}
built=$work/crates/$program/out/$program
row sums 7
row deep 67
row reads 39
row gives 130
row texts 11
