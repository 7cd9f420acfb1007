#!/bin/sh
# What `drink sim` takes for a line of a long script: bottles go to and fro between offices in a ring, with a session at each
# end, over frames of which some are lost and some come twice; and for a line that submits a heavy session, nearly always
# where there is no room for it. `docs/BENCHMARKS.md` has the figures. It needs a program that is built, awk, and GNU time;
# for the counts of instructions valgrind. It fails only where the program doesn't run on a script as it is to.
#
#   sh bench/sim.sh [PROGRAM]        PROGRAM is crates/drink/out/drink where it is left out
set -eu
top=$(cd "$(dirname "$0")/.." && pwd)
. "$top/bench/shared/program.sh"
. "$top/bench/shared/sim.sh"

# OFFICES: a plan in which each office shares a record with the next one, two sessions for each of these, and in `plan` and
# `sessions` what they are.
ring() {
    awk -v offices="$1" -v plan="$work/plan" -v sessions="$work/sessions" '
        BEGIN {
            pairs = offices == 2 ? 1 : offices
            print "plan 1 run 1" > plan
            for (a = 0; a < offices; a++) print "office o" a " -" > plan
            for (p = 0; p < pairs; p++) {
                b = (p + 1) % offices
                # The last fork starts at its other end: no ring precedes itself.
                print "pair o" p " o" b " fork o" (p + 1 == pairs && pairs > 1 ? b : p) > plan
                print "record r" p " o" p " o" b " 0 at o" p > plan
                print "session o" p "\nset r" p " = read r" p " + 1\nend" > sessions
                print "session o" b "\nset r" p " = read r" p " + 1\ngive read r" p "\nend" > sessions
            }
        }'
}

# OFFICES LINES: an office submits its session, starts it, asks for the bottle, gets it, drinks, works and finishes; pair by
# pair, and then each pair from its other end. Each frame is made twice, of which the first is lost, and the second comes
# twice. What an office sent is acknowledged by the next frame that comes back.
script() {
    awk -v offices="$1" -v lines="$2" '
        function put(line) { if (n < lines) { print line; n++ } }
        function go(from, to) {
            waiting[from, to]++
            put("send o" from " o" to " " waiting[from, to])
            put("send o" from " o" to " " waiting[from, to])
            waiting[to, from] = 0
            sent += 2
            put("deliver " sent)
            put("deliver " sent)
        }
        BEGIN {
            pairs = offices == 2 ? 1 : offices
            for (turn = 0; n < lines; turn++) {
                p = turn % pairs
                back = int(turn / pairs) % 2
                me = back ? p : (p + 1) % offices
                other = back ? (p + 1) % offices : p
                put("submit " (2 * p + (back ? 1 : 2)))
                put("do o" me " start")
                put("do o" me " askbottle r" p)
                go(me, other)
                put("do o" other " givebottle r" p)
                go(other, me)
                put("do o" me " drink")
                put("do o" me " work 100")
                put("do o" me " finish")
                put("do o" me " start")
            }
        }'
}

# A session of the largest cost: sums of `--1`. And so many lines that submit it.
awk 'BEGIN {
    print "session o0"
    for (line = 0; line < 83; line++) {
        text = "let v = --1"
        for (term = 1; term < 30; term++) text = text " + --1"
        print text
    }
    print "end"
}' > "$work/heavy"

submits() {
    awk -v lines="$1" 'BEGIN { for (n = 0; n < lines; n++) print "submit 1" }'
}

# ALL NONE LINES: what so many lines take, and what a line takes.
for_a_line() {
    if [ "$1" = - ]; then
        echo '- | -'
    else
        echo "$(($1 - $2)) | $(for_each "$1" "$2" "$3")"
    fi
}

printf '| %s | %s | %s | %s | %s | %s |\n' Offices Lines Milliseconds 'Memory, KiB' Instructions 'For a line'
for offices in 2 16; do
    ring "$offices"
    : > "$work/script"
    none=$(instructions)
    for lines in 10000 100000 500000 1000000; do
        script "$offices" "$lines" > "$work/script"
        took=$(milliseconds)
        most=$(memory)
        all=$(instructions)
        printf '| %s | %s | %s | %s | %s |\n' "$offices" "$lines" "$took" "$most" "$(for_a_line "$all" "$none" "$lines")"
    done
done

# The 64 sessions that there is room for are submitted in both runs.
ring 2
cp "$work/heavy" "$work/sessions"
submits 64 > "$work/script"
few=$(instructions)
printf '\n| %s | %s | %s | %s | %s |\n' 'Lines that submit a heavy session' Bytes 'Memory, KiB' Instructions 'For a line'
most=$(memory)
printf '| 64 | %s | %s | - | - |\n' "$(wc -c < "$work/script")" "$most"
submits 100000 > "$work/script"
most=$(memory)
all=$(instructions)
printf '| 100000 | %s | %s | %s |\n' "$(wc -c < "$work/script")" "$most" "$(for_a_line "$all" "$few" 99936)"
