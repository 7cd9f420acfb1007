#!/bin/sh
# What a step of `settle` takes in `drink sim`, and that it stays the same however many there are: of two and of four offices
# in a ring, each two of which share a record, where a session sets both records of its office; and of sixteen offices, all
# neighbours, each two of which share eight records, where a session sets one of every neighbour. In each round every office
# submits a session, and all of them settle. And what forty times settling takes, where before each of them every one of the sixteen
# offices submits as many sessions as it takes, on a record each: 40,960 together. `docs/BENCHMARKS.md` has the figures. It needs a
# program that is built, awk, and GNU time; for the counts of instructions valgrind. It fails only where the program doesn't run on
# a script as it is to.
#
#   sh bench/settle.sh [PROGRAM]        PROGRAM is crates/drink/out/drink where it is left out
set -eu
top=$(cd "$(dirname "$0")/.." && pwd)
. "$top/bench/shared/program.sh"
. "$top/bench/shared/sim.sh"

# OFFICES RECORDS SHAPE: in a `ring` each office has a pair with the next one, and else with all; so many records of each
# pair, at its one end and at the other in turn. And for each office a session on each of them.
plan() {
    awk -v offices="$1" -v records="$2" -v shape="$3" -v plan="$work/plan" -v sessions="$work/sessions" '
        function are_pair(a, b) { return a < b && (shape != "ring" || b == a + 1 || (a == 0 && b == offices - 1)) }
        BEGIN {
            print "plan 1 run 1" > plan
            for (a = 0; a < offices; a++) print "office o" a " -" > plan
            for (b = 0; b < offices; b++) for (a = 0; a < b; a++) if (are_pair(a, b)) {
                print "pair o" a " o" b " fork o" a > plan
                for (k = 0; k < records; k++) print "record r" a "_" b "_" k " o" a " o" b " 0 at o" (k % 2 ? b : a) > plan
            }
            for (k = 0; k < records; k++) for (me = 0; me < offices; me++) {
                print "session o" me > sessions
                for (b = 0; b < offices; b++) for (a = 0; a < b; a++) if (are_pair(a, b) && (a == me || b == me)) {
                    name = "r" a "_" b "_" k
                    print "set " name " = read " name " + 1" > sessions
                }
                print "end" > sessions
            }
        }'
}

# OFFICES RECORDS ROUNDS: in each round each office gets a session, on one of its records after the other.
script() {
    awk -v offices="$1" -v records="$2" -v rounds="$3" 'BEGIN {
        for (turn = 0; turn < rounds; turn++) {
            for (me = 0; me < offices; me++) print "submit " turn % records * offices + me + 1
            print "settle 1000000"
        }
    }'
}

printf '| %s | %s | %s | %s | %s |\n' Offices Records Steps Instructions 'For a step'
for row in '2 1 ring 100' '2 1 ring 200' '4 1 ring 100' '4 1 ring 200' '16 8 all 4' '16 8 all 8'; do
    set -- $row
    plan "$1" "$2" "$3"
    : > "$work/script"
    none=$(instructions)
    script "$1" "$2" "$4" > "$work/script"
    prints 'unfinished 0'
    steps=$(awk '/^settled .* finished$/ { steps += $2 } END { print steps }' "$work/printed")
    all=$(instructions)
    more=-
    [ "$all" = - ] || more=$((all - none))
    printf '| %s | %s | %s | %s | %s |\n' "$1" "$(grep -c ^record "$work/plan")" "$steps" "$more" "$(for_each "$all" "$none" "$steps")"
done

# For each of 16 offices 64 sessions, each of which sets one of its records, one after the other.
plan 16 8 all
awk 'BEGIN {
    for (n = 0; n < 64; n++) for (me = 0; me < 16; me++) {
        v = (me + 1 + n % 15) % 16
        name = "r" (me < v ? me "_" v : v "_" me) "_" int(n / 15) % 8
        print "session o" me "\nset " name " = read " name " + 1\nend"
    }
}' > "$work/sessions"

# SESSIONS TIMES: so often all of them are submitted, and settle.
submitted() {
    awk -v sessions="$1" -v times="$2" 'BEGIN {
        for (turn = 0; turn < times; turn++) {
            for (n = 1; n <= sessions; n++) print "submit " n
            print "settle 1000000"
        }
    }'
}

: > "$work/script"
none=$(instructions)
printf '\n| %s | %s | %s | %s | %s |\n' Settled Sessions Steps 'Memory, KiB' Instructions
for times in 20 40; do
    submitted 1024 "$times" > "$work/script"
    prints 'unfinished 0'
    steps=$(awk '/^settled .* finished$/ { steps += $2 } END { print steps }' "$work/printed")
    all=$(instructions)
    most=$(memory)
    more=-
    [ "$all" = - ] || more=$((all - none))
    printf '| %s | %s | %s | %s | %s |\n' "$times" "$((1024 * times))" "$steps" "$most" "$more"
done
