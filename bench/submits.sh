#!/bin/sh
# What `drink sim` takes for a session that is submitted, done and told, office after office, and how that and the memory
# grow with their number: a session of one statement, and one nearly as dear as a session may be that ends at its first
# line, whose whole program is made code. `docs/BENCHMARKS.md` has the figures. It needs a program that is built, awk,
# and GNU time; for the counts of instructions valgrind. It fails only where the program doesn't run on a script as it is to.
#
#   sh bench/submits.sh [PROGRAM]        PROGRAM is crates/drink/out/drink where it is left out
set -eu
top=$(cd "$(dirname "$0")/.." && pwd)
. "$top/bench/shared/program.sh"
. "$top/bench/shared/sim.sh"

# OFFICES KIND: a plan in which each office has a record to begin with, and for each office 64 `light` sessions on it, or a
# `heavy` one.
sessions() {
    awk -v offices="$1" -v kind="$2" -v plan="$work/plan" -v sessions="$work/sessions" '
        BEGIN {
            print "plan 1 run 1" > plan
            for (a = 0; a < offices; a++) print "office o" a " -" > plan
            for (a = 0; a < offices; a++) {
                b = (a + 1) % offices
                if (offices > 2 || a == 0) print "pair o" a " o" b " fork o" (b > a ? a : b) > plan
                print "record r" a " o" a " o" b " 0 at o" a > plan
            }
            body = "set r# = read r# + 1\n"
            if (kind == "heavy") {
                body = "require 1 == 0 else 1\n"
                for (line = 0; line < 82; line++) {
                    body = body "let v=--1"
                    for (term = 1; term < 30; term++) body = body "+--1"
                    body = body "\n"
                }
            }
            for (n = 0; n < (kind == "heavy" ? 1 : 64); n++) for (a = 0; a < offices; a++) {
                text = body
                gsub("#", a, text)
                print "session o" a "\n" text "end" > sessions
            }
        }'
}

# OFFICES SESSIONS COUNT: of a text of so many sessions, so many are submitted one after another, each done before the next.
script() {
    awk -v offices="$1" -v sessions="$2" -v count="$3" 'BEGIN {
        for (n = 0; n < count; n++) {
            print "submit " n % sessions + 1
            print "advance o" n % offices " 5"
        }
    }'
}

printf '| %s | %s | %s | %s | %s | %s | %s |\n' Offices Sessions Each 'Memory, KiB' 'Bytes for one' Instructions 'For one'
for row in '2 light 5000' '2 light 20000' '16 light 5000' '16 light 20000' '16 heavy 200' '16 heavy 800'; do
    set -- $row
    sessions "$1" "$2"
    texts=$(grep -c ^session "$work/sessions")
    : > "$work/script"
    none=$(instructions)
    least=$(memory)
    script "$1" "$texts" "$3" > "$work/script"
    prints 'unfinished 0'
    all=$(instructions)
    most=$(memory)
    more=-
    [ "$all" = - ] || more=$((all - none))
    bytes=-
    [ "$most" = - ] || bytes=$(((most - least) * 1024 / $3))
    printf '| %s | %s | %s | %s | %s | %s | %s |\n' "$1" "$3" "$2" "$most" "$bytes" "$more" "$(for_each "$all" "$none" "$3")"
done
