#!/bin/sh
# Counts the instructions and the allocations of a take and a give of the office of a desk that nobody else uses: what a run
# with 10,000 of both has more than one with none. Measures the calls a second of one, two, four and eight threads, at a desk and
# at an office under a mutex of the standard library, in turn: eight million calls among them that ask what waits for a
# neighbour, which is the cheapest call of all, or a million that make a frame for it. And what four threads that wait take of
# the processors while a fifth holds the office for a second, at both. Needs rt, valgrind and GNU time.
#
#   sh bench/desk.sh
set -eu
top=$(cd "$(dirname "$0")/.." && pwd)
uses="locked_office site_core own_lock office_map"
. "$top/bench/shared/crate.sh"
built=$work/crates/$program/out/$program

# The allocations of a run with these words.
allocations() {
    valgrind "$built" "$@" > "$work/said" 2>&1 || exit 1
    sed -n 's/.*total heap usage: \([0-9,]*\) allocs.*/\1/p' "$work/said" | tr -d ,
}

none=$(instructions take 1 0)
all=$(instructions take 1 10000)
fewer=$(allocations take 1 0)
more=$(allocations take 1 10000)
echo "take and give: $(((all - none) / 10000)) instructions, $((more - fewer)) allocations in 10,000"

# CALL THREADS TIMES: nine runs at a desk and nine under a mutex, one of each in turn, since the machine is faster at some
# moments than at others. The medians are told, in thousands of calls a second.
beside() {
    : > "$work/desk"
    : > "$work/mutex"
    for _ in 1 2 3 4 5 6 7 8 9; do
        for where in desk mutex; do
            "$built" "$where" "$2" $(($3 / $2)) "$1" > "$work/written" || exit 1
            awk -v times="$3" '{ print int(times * 1000 / $2) }' "$work/written" >> "$work/$where"
        done
    done
    desk=$(sort -n "$work/desk" | sed -n 5p)
    mutex=$(sort -n "$work/mutex" | sed -n 5p)
    echo "$1, $2 threads: thousands of calls a second: desk $desk, mutex $mutex: $((desk * 100 / mutex)) hundredths"
}
for threads in 1 2 4 8; do
    beside ask $threads 8000000
done
for threads in 1 2 4 8; do
    beside send $threads 1000000
done

# WHERE CALL: the milliseconds that five threads take of the processors: a ninth of nine runs, since one is told to ten milliseconds.
spent() {
    for _ in 1 2 3 4 5 6 7 8 9; do
        /usr/bin/time -o "$work/took" -f '%U %S' "$built" "$1" 5 0 "$2" > /dev/null || exit 1
        cat "$work/took"
    done > "$work/spent"
    awk '{ sum += $1 + $2 } END { printf "%d", 1000 * sum / 9 }' "$work/spent"
}
# What four of them take that wait, less a run that makes no call.
for where in desk mutex; do
    none=$(spent "$where" ask)
    hold=$(spent "$where" hold)
    echo "four threads that wait while a fifth holds the office for a second: $((hold - none)) milliseconds of the processors: $where"
done
