#!/bin/sh
# What `advance` takes in `drink sim`, where an office looks for its next rule: a line that finds none, at an office with
# nothing to do and at one that waits for all its forks and bottles; and a rule, in a run in which office after office gets
# all its forks and a bottle or two from each neighbour, by `advance` and by a line for each rule. On two offices with one
# record, and on sixteen with 960. `docs/BENCHMARKS.md` has the figures. It needs a program that is built, awk, and for the
# counts of instructions valgrind. It fails only where the program doesn't run on a script as it is to.
#
#   sh bench/advance.sh [PROGRAM]        PROGRAM is crates/drink/out/drink where it is left out
set -eu
top=$(cd "$(dirname "$0")/.." && pwd)
. "$top/bench/shared/program.sh"
. "$top/bench/shared/sim.sh"

# OFFICES RECORDS: a plan in which all offices are neighbours and each two share so many records. All starts at the later
# of two. For each office so many sessions, which set a record of each neighbour, and two of the first, where there are two.
largest() {
    awk -v offices="$1" -v records="$2" -v plan="$work/plan" -v sessions="$work/sessions" '
        function sets(a, b, k) { name = "r" (a < b ? a "_" b : b "_" a) "_" k; return "set " name " = read " name " + 1\n" }
        BEGIN {
            print "plan 1 run 1" > plan
            for (a = 0; a < offices; a++) print "office o" a " -" > plan
            for (b = 1; b < offices; b++) for (a = 0; a < b; a++) {
                print "pair o" a " o" b " fork o" b > plan
                for (k = 0; k < records; k++) print "record r" a "_" b "_" k " o" a " o" b " 0 at o" b > plan
            }
            for (a = 0; a < offices; a++) for (k = 0; k < records; k++) {
                text = "session o" a "\n"
                for (b = 0; b < offices; b++) if (b != a) text = text sets(a, b, k)
                if (records > 1) text = text sets(a, a == 0 ? 1 : 0, (k + 1) % records)
                print text "end" > sessions
            }
        }'
}

# OFFICES RECORDS TURNS WAY: in each turn the next office submits a session, asks for the forks and bottles that it lacks,
# gets them, works and eats. WAY is `advance`, or `do` for a line for each rule. How many rules these are is in `rules`.
turns() {
    awk -v offices="$1" -v records="$2" -v turns="$3" -v way="$4" -v count="$work/rules" '
        function pair(a, b) { return a < b ? b * (b - 1) / 2 + a : a * (a - 1) / 2 + b }
        function named(a, b, k) { return "r" (a < b ? a "_" b : b "_" a) "_" k }
        function rule(o, text) { rules++; if (way == "do") print "do o" o " " text }
        function left(o) { if (way == "advance") print "advance o" o " 1000" }
        function asks(me, v, k) {
            if (bottle[pair(me, v), k] != me) { rule(me, "askbottle " named(me, v, k)); asked[v, k] = 1; messages[v]++ }
        }
        function gives(v, me, k) {
            if ((v, k) in asked) { rule(v, "givebottle " named(me, v, k)); bottle[pair(me, v), k] = me; delete asked[v, k] }
        }
        # So many messages more than those that wait already; all that comes back is acknowledged.
        function go(from, to, n) {
            for (i = 1; i <= n; i++) {
                print "send o" from " o" to " " waiting[from, to] + i
                print "deliver " ++sent
            }
            waiting[from, to] += n
            waiting[to, from] = 0
        }
        BEGIN {
            for (b = 1; b < offices; b++) for (a = 0; a < b; a++) {
                fork[pair(a, b)] = b
                for (k = 0; k < records; k++) bottle[pair(a, b), k] = b
            }
            for (turn = 0; turn < turns; turn++) {
                me = turn % offices
                first = me == 0 ? 1 : 0
                now = int(turn / offices) % records
                next_one = (now + 1) % records
                print "submit " me * records + now + 1
                rule(me, "start")
                rule(me, "hungry")
                for (v = 0; v < offices; v++) if (v != me) {
                    messages[v] = 0
                    if (v == first && next_one < now) asks(me, v, next_one)
                    asks(me, v, now)
                    if (v == first && next_one > now) asks(me, v, next_one)
                }
                for (v = 0; v < offices; v++) if (v != me && fork[pair(me, v)] != me) {
                    rule(me, "askfork o" v)
                    messages[v]++
                }
                left(me)
                for (v = 0; v < offices; v++) if (v != me && messages[v] > 0) {
                    go(me, v, messages[v])
                    for (k = 0; k < records; k++) gives(v, me, k)
                    if (fork[pair(me, v)] != me) { rule(v, "givefork o" me); fork[pair(me, v)] = me }
                    left(v)
                    go(v, me, messages[v])
                }
                rule(me, "drink")
                rule(me, "work 256")
                rule(me, "finish")
                rule(me, "eat")
                rule(me, "leave")
                left(me)
            }
            print rules > count
        }'
}

# OFFICE LINES: the office looks for a rule so often, and there is none.
looks() {
    awk -v office="$1" -v lines="$2" 'BEGIN { for (n = 0; n < lines; n++) print "advance o" office " 1" }'
}

lines=10000

# OFFICE: what a line takes that finds no rule at this office, after what stands in `before`.
for_a_look() {
    cp "$work/before" "$work/script"
    none=$(instructions)
    looks "$1" "$lines" >> "$work/script"
    prints 'rules 0'
    for_each "$(instructions)" "$none" "$lines"
}

printf '| %s | %s | %s | %s | %s | %s |\n' Offices Records 'Nothing to do' 'Waits for all' 'A rule by advance' 'A rule by a line'
for shape in '2 1 5000' '16 8 160'; do
    set -- $shape
    largest "$1" "$2"
    : > "$work/before"
    idle=$(for_a_look "$(($1 - 1))")
    printf 'submit 1\nadvance o0 1000\n' > "$work/before"
    waits=$(for_a_look 0)
    : > "$work/script"
    none=$(instructions)
    turns "$1" "$2" "$3" advance > "$work/script"
    prints 'unfinished 0'
    cp "$work/printed" "$work/advanced"
    advance=$(for_each "$(instructions)" "$none" "$(cat "$work/rules")")
    turns "$1" "$2" "$3" do > "$work/script"
    prints 'unfinished 0'
    # Both ways lead to the same report.
    for report in advanced printed; do
        sed -n '/^o[0-9]*\.\|^unfinished\|^value/p' "$work/$report" > "$work/$report.report"
    done
    cmp "$work/advanced.report" "$work/printed.report"
    by_line=$(for_each "$(instructions)" "$none" "$(cat "$work/rules")")
    printf '| %s | %s | %s | %s | %s | %s |\n' "$1" "$(grep -c ^record "$work/plan")" "$idle" "$waits" "$advance" "$by_line"
done
