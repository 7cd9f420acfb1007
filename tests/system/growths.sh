#!/bin/sh
# Refuses each allocation of crates/refused_growths in turn, the first, the second and so on, until a run needs no more: one session
# of two offices, by each call that takes memory, and an office whose journal begins a page. Such a run has to say which call lacked memory, and to end as a run that is refused
# nothing, since the program makes that call again; or to say that something else lacked memory, with status 1. It fails where one
# doesn't, and where one of the calls was never refused. It needs a program that is built, and a C compiler.
#
#   sh tests/system/growths.sh PROGRAM LIBRARY FOLDER        LIBRARY is made of refuse.c; in FOLDER is room for files
set -eu
top=$(cd "$(dirname "$0")/../.." && pwd)
program=$1 library=$2 work=$3
wanted=$top/crates/refused_growths/stdout
"$program" > "$work/out"
cmp "$wanted" "$work/out" || { echo "tests/system/growths.sh: with all its memory it doesn't answer as it should" >&2; exit 1; }

# Whether it says what it should, but for the call that lacked memory. Of a world whose run stopped, the replies before aren't told.
answers() {
    [ "$(grep -c '^refused ' "$work/out")" -le 1 ] || return 1
    grep -v '^refused ' "$work/out" > "$work/said"
    if grep -qx 'refused World::run' "$work/out"; then
        grep -v '^world ' "$wanted" > "$work/wanted.rest"
        grep -v '^world ' "$work/said" | cmp -s - "$work/wanted.rest" || return 1
        grep '^world ' "$work/said" > "$work/world" || true
        grep '^world ' "$wanted" | tail -n "$(wc -l < "$work/world")" | cmp -s - "$work/world"
    else
        cmp -s "$wanted" "$work/said"
    fi
}

failed=0
elsewhere=0
same=0
n=0
: > "$work/calls"
while :; do
    n=$((n + 1))
    status=0
    REFUSED=$n LD_PRELOAD="$library" "$program" > "$work/out" 2> "$work/err" 3> "$work/told" || status=$?
    [ -s "$work/told" ] || break
    if [ "$status" -eq 0 ] && answers; then
        grep '^refused ' "$work/out" >> "$work/calls" || same=$((same + 1))
    elif [ "$status" -eq 1 ] && tail -n 1 "$work/out" | grep -q 'out of memory'; then
        elsewhere=$((elsewhere + 1))
    else
        echo "tests/system/growths.sh: allocation $n: status $status" >&2
        tail -n 3 "$work/out" "$work/err" >&2
        failed=$((failed + 1))
    fi
done
for call in Plan::read read_sessions serial Office::step "Office::step of entry 257" Desk::submit World::open World::run; do
    count=$(grep -cx "refused $call" "$work/calls" || true)
    echo "$call: refused $count times, and answered as it should then"
    [ "$count" -gt 0 ] || failed=$((failed + 1))
done
echo "elsewhere: $elsewhere; answered all the same: $same"
[ "$failed" -eq 0 ] || { echo "tests/system/growths.sh: $failed of these failed" >&2; exit 1; }
