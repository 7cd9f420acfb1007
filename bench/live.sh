#!/bin/sh
# Measures offices at UDP sockets of this machine, on as many threads as they have: the median of nine runs each, beside a plain
# round trip of a datagram in the same run, which goes to another socket of the same thread and back; what a run takes of the
# processors; and how long one of one session takes, which is mostly opening and closing. And counts the instructions of a turn
# without work, the system's calls left out. Needs rt, valgrind and GNU time, and four processors with no other work.
#
#   sh bench/live.sh
set -eu
top=$(cd "$(dirname "$0")/.." && pwd)
uses="office_runs office_stations socket_pump locked_office own_lock site_core session_language session_programs office_map"
. "$top/bench/shared/crate.sh"
built=$work/crates/$program/out/$program

# The median of what nine runs with these words write. Where one fails, so does this.
median() {
    for _ in 1 2 3 4 5 6 7 8 9; do
        "$built" "$@" || exit 1
    done > "$work/written"
    sort -n "$work/written" | sed -n 5p
}

# The milliseconds that a run with these words takes of the processors, in the program and in the system: a ninth of nine runs, since
# one is told to ten milliseconds.
spent() {
    for _ in 1 2 3 4 5 6 7 8 9; do
        /usr/bin/time -o "$work/took" -f '%U %S' "$built" "$@" > /dev/null || exit 1
        cat "$work/took"
    done > "$work/spent"
    awk '{ own += $1; kernel += $2 } END { printf "%d and %d", 1000 * own / 9, 1000 * kernel / 9 }' "$work/spent"
}

trip=$(median trips 20000)
alone=$(median alone 2000)
echo "a round trip: $trip ns"
echo "a session that fetches its bottle, alone on two offices: $alone ns, $((alone * 10 / trip)) tenths of a round trip"
for offices in 2 4 16; do
    ring=$(median ring 1024 $offices)
    all=$(median pairs 1024 $offices)
    echo "ring of $offices, 1024 sessions: $ring a second"
    echo "$offices offices, all neighbours, 1024 sessions: $all a second"
done
for offices in 4 16; do
    for shape in ring pairs; do
        took=$(spent $shape 1024 $offices)
        one=$(median $shape 1 $offices)
        echo "$shape, $offices offices: 1024 sessions take $took milliseconds of the processors, in the program and in the system; a run of one session $((1000000 / one)) microseconds"
    done
done
for offices in 2 4 6 16; do
    none=$(instructions idle 0 $offices)
    all=$(instructions idle 10000 $offices)
    echo "a turn without work, $((offices - 1)) neighbours: $(((all - none) / 10000)) instructions"
done
