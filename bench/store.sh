#!/bin/sh
# What a store costs an office: sessions a second of a ring of four offices, each a process, without a store and with one, beside
# SQLite; the syncs of that; what a turn and a datagram take; and a start on a full journal. `docs/BENCHMARKS.md` has the figures. It
# needs a program that is built, python3, a C compiler, and GNU time; for the counts of instructions valgrind; and four processors
# with no other work. Stores are made in the folder of temporary files (TMPDIR), so that is to be on a disk; it needs 1 GB. It fails
# only where a session isn't done, a start tells other sessions than have finished, or syncs are other than they have to be: one for
# each append, or none.
#
#   sh bench/store.sh [PROGRAM]        PROGRAM is crates/drink/out/drink where it is left out
set -eu
top=$(cd "$(dirname "$0")/.." && pwd)
. "$top/bench/shared/program.sh"
cc -O2 -shared -fPIC -o "$work/counts.so" "$top/bench/shared/counts.c" -ldl
echo "Stores are on $(stat -f -c %T "$work")."
echo
python3 "$top/bench/store_ring.py" "$program" "$work/counts.so" "$work"
echo
python3 "$top/bench/store_fed.py" "$program" "$work/counts.so" "$work"

# The seconds of a start, of a processor and of the clock, and the most memory, in KiB.
printf '\n| %s | %s | %s | %s | %s | %s |\n|---|---|---|---|---|---|\n' 'Full journal' Bytes 'Sessions finished' Seconds 'Of a processor' 'Memory, KiB'
for kind in resends work; do
    finished=$(python3 "$top/bench/store_full.py" "$kind" "$work")
    for run in 1 2 3; do
        /usr/bin/time -o "$work/took" -f '%e %U %S %M' "$program" run "$work/plan" o0 "$work/sessions" --turns 1 --store "$work/store" > "$work/printed" 2> "$work/said" || true
        if [ "$(sed -n 1p "$work/printed")" != "before $finished" ]; then
            echo "$0: 'before $finished' is wanted, and not '$(sed -n 1p "$work/printed")': $(cat "$work/said")" >&2
            exit 1
        fi
        awk '/^[0-9. ]+$/ { printf "%s %.2f %s\n", $1, $2 + $3, $4 }' "$work/took"
    done | sort -n | sed -n 2p > "$work/median"
    read -r seconds processor memory < "$work/median"
    printf '| %s | %s | %s | %s | %s | %s |\n' "$kind" "$(wc -c < "$work/store")" "$finished" "$seconds" "$processor" "$memory"
done
