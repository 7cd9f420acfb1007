#!/bin/sh
# Refuses each allocation of the program in turn, the first, the second and so on, until a run needs no more. Each such run
# has to say that memory ran out and nothing else, with status 1 and nothing written, or to end as a run that is refused
# nothing. An office that runs may be cut short besides: then it prints what stands, and says so; and where its socket lacked
# memory, it names the address. Where journals are written to files, a file that lacks memory may be told after all was printed, and
# each file that is there is whole. Where a long transcript is written in parts, those before stand, and it is told as a fault of
# the output. A store is as it was where nothing was done, or made and empty. It fails where one doesn't, and where a run has no
# allocation that could be refused. It needs a program that is built, and a C compiler. memory.py calls it.
#
#   sh tests/system/allocations.sh PROGRAM LIBRARY FOLDER        LIBRARY is made of refuse.c; in FOLDER is room for files
set -eu
top=$(cd "$(dirname "$0")/../.." && pwd)
program=$1 library=$2 work=$3

# NAME WORDS..: the program on these words, with the standard input of $work/in. Files that it writes are those in $work/left; where
# `seed` is a file, a store that has the same is there before.
row() {
    name=$1
    shift
    wanted=0
    case "$*" in
    *"$work/left"*) writes=yes ;;
    *) writes=no ;;
    esac
    case "$*" in
    *--store*) stored=yes ;;
    *) stored=no ;;
    esac
    forget
    "$program" "$@" < "$work/in" > "$work/out.wanted" 2> "$work/err.wanted" || wanted=$?
    rm -rf "$work/left.wanted"
    cp -r "$work/left" "$work/left.wanted"
    n=0
    answered=0
    cut=0
    while :; do
        n=$((n + 1))
        status=0
        forget
        REFUSED=$n LD_PRELOAD="$library" "$program" "$@" < "$work/in" > "$work/out" 2> "$work/err" 3> "$work/told" || status=$?
        [ -s "$work/told" ] || break
        if did_nothing "$@"; then
            :
        elif was_cut_short "$@" || lacked_a_file || wrote_parts "$@"; then
            cut=$((cut + 1))
        elif [ "$status" -eq "$wanted" ] && cmp -s "$work/out" "$work/out.wanted" && { cmp -s "$work/err" "$work/err.wanted" || says_no_remarks; } && has_all_files; then
            answered=$((answered + 1))
        else
            echo "tests/system/allocations.sh: $name, allocation $n: status $status, files $(ls "$work/left")" >&2
            head -n 3 "$work/out" "$work/err" >&2
            failed=$((failed + 1))
        fi
    done
    if [ "$n" -eq 1 ]; then
        echo "tests/system/allocations.sh: $name: no allocation was seen, so none was refused: is $program linked to a C library whose calls can be replaced?" >&2
        failed=$((failed + 1))
    fi
    echo "| $name | $((n - 1)) | $((n - 1 - answered - cut)) | $cut | $answered |"
}

# No file of a run before is left.
forget() {
    [ "$writes" = no ] || rm -f "$work/left"/*
    [ -z "$seed" ] || cp "$seed" "$work/left/store"
}

# Whether nothing was written, for want of memory or of a socket.
did_nothing() {
    [ "$status" -eq 1 ] && [ ! -s "$work/out" ] && has_no_files || return 1
    cmp -s "$work/err" "$work/memory" || { [ "${1-}" = run ] && says "drink: U2 BindFailed: no socket can have the address [0-9.:]*: out of memory"; } ||
        { [ "$stored" = yes ] && says "drink: .*: U4 StoreFailed: .*: out of memory; nothing was run"; }
}

# Whether a run was cut short, told what stands, and wrote down what was done.
was_cut_short() {
    [ "${1-}" = run ] && [ "$status" -eq 1 ] && tail -n 1 "$work/err" | cmp -s - "$work/cut" && says_what_is_left && stands || return 1
    for file in "$work/left"/*; do
        [ ! -e "$file" ] || head -n "$(wc -l < "$file")" "$work/left.wanted/${file##*/}" | cmp -s - "$file" || return 1
    done
}

# Whether all was printed, and a file of journals lacked memory; those that are there are whole.
lacked_a_file() {
    [ "$status" -eq 1 ] && [ "$writes" = yes ] && cmp -s "$work/out" "$work/out.wanted" && says "drink: \(.*: \)\{0,1\}X5 WriteFailed: .*: out of memory" || return 1
    for file in "$work/left"/*; do
        [ ! -e "$file" ] || cmp -s "$file" "$work/left.wanted/${file##*/}" || return 1
    done
}

# Whether parts of a long transcript were written, and memory that ran out then is told as a fault of the writing.
wrote_parts() {
    [ "${1-}" = sim ] && [ "$status" -eq 1 ] && [ -s "$work/out" ] && has_no_files && head -c "$(wc -c < "$work/out")" "$work/out.wanted" | cmp -s - "$work/out" && says "drink: X5 WriteFailed: .*: out of memory"
}

has_no_files() {
    if [ -n "$seed" ]; then
        cmp -s "$seed" "$work/left/store"
    else
        [ "$writes" = no ] || [ -z "$(ls "$work/left")" ] || { [ "$(ls "$work/left")" = store ] && [ ! -s "$work/left/store" ]; }
    fi
}

has_all_files() {
    [ "$writes" = no ] || diff -r "$work/left" "$work/left.wanted" > "$work/differs"
}

# With a store all was written as it stood, and what is said of the sessions that are left, which no claim rests on, may lack memory.
says_no_remarks() {
    [ "$stored" = yes ] && [ ! -s "$work/err" ]
}

# Whether this line, and no other, went to the standard error.
says() {
    [ "$(wc -l < "$work/err")" -eq 1 ] && grep -qx "$1" "$work/err"
}

# Whether nothing but what a run left went to the standard error before its last line.
says_what_is_left() {
    ! sed '$d' "$work/err" | grep -qv '^drink: desk1[. ]'
}

# Whether what was written is what stands of a run: some of its sessions, and how many are left. With a store they were written as they
# stood, and the line of how many are left may be what lacked memory.
stands() {
    grep -v '^unfinished ' "$work/out" > "$work/out.sessions" || true
    head -n "$(wc -l < "$work/out.sessions")" "$work/out.wanted" | cmp -s - "$work/out.sessions" && { [ "$stored" = yes ] || tail -n 1 "$work/out" | grep -q '^unfinished [0-9][0-9]*$'; }
}

echo "drink: out of memory" > "$work/memory"
echo "drink: out of memory; the run ended with it, and what was done before is printed" > "$work/cut"
failed=0
seed=
mkdir "$work/left"
examples=$top/examples
echo "| Run | Allocations | Out of memory, nothing written | Out of memory, what stands written | Right answer all the same |"
echo "|---|---|---|---|---|"
: > "$work/in"
for example in branch_ledger lease_table shared_stock; do
    row "serial, $example" serial "$examples/$example/plan.txt" "$examples/$example/sessions.txt"
done
stock=$examples/shared_stock
row "serial, objects" serial "$stock/plan.txt" "$stock/sessions.txt" --json
row "sim, objects" sim "$stock/plan.txt" "$stock/sessions.txt" "$stock/script.txt" --json
row "sim, shared_stock" sim "$stock/plan.txt" "$stock/sessions.txt" "$stock/script.txt"
awk 'BEGIN { for (i = 0; i < 3000; i++) print "send shop depot 0" }' > "$work/long"
row "sim, a transcript of several parts" sim "$stock/plan.txt" "$stock/sessions.txt" "$work/long"
row "random, shared_stock" random "$stock/plan.txt" "$stock/sessions.txt" --seed 1 --loss 20 --steps 300
# Addresses of this machine that no other run has.
here=127.$((200 + $$ % 50)).$(($$ / 256 % 256)).$(($$ % 256))
sed "s/127\.0\.0\.1/$here/" "$examples/two_desks/plan.txt" > "$work/desks"
printf 'session desk1\nset places = read places - 1\ngive 1\nend\n' > "$work/own"
{ cat "$work/own"; printf 'session desk1\ngive read keys\nend\n'; } > "$work/sessions"
row "run, two_desks, alone" run "$work/desks" desk1 "$work/sessions" --turns 3
row "run, its journal" run "$work/desks" desk1 "$work/own" --turns 3 --journal "$work/left/desk1.journal"
row "run, a store that is made" run "$work/desks" desk1 "$work/sessions" --turns 3 --store "$work/left/store" --new
"$program" run "$work/desks" desk1 "$work/own" --turns 3 --store "$work/seed" --new > "$work/out"
seed=$work/seed
row "run, a store that is there" run "$work/desks" desk1 "$work/sessions" --turns 3 --store "$work/left/store"
row "run, a store of other sessions" run "$work/desks" desk1 /dev/null --turns 3 --store "$work/left/store"
sed 's/start/eat/' "$work/seed" > "$work/faulty"
seed=$work/faulty
row "run, a faulty store" run "$work/desks" desk1 "$work/sessions" --turns 3 --store "$work/left/store"
seed=
row "sim, journals" sim "$stock/plan.txt" "$stock/sessions.txt" "$stock/script.txt" --journals "$work/left"
safe=$examples/till_and_safe
row "audit, till_and_safe" audit "$safe/plan.txt" "$safe/till.journal" "$safe/safe.journal"
row "audit, objects" audit "$safe/plan.txt" "$safe/till.journal" "$safe/safe.journal" --json
row "audit, an office without a journal" audit "$safe/plan.txt" "$safe/till.journal"
ledger=$examples/branch_ledger
{ cat "$ledger/plan.txt"; echo ---; cat "$ledger/sessions.txt"; } > "$work/in"
row "serial - -" serial - -
row "serial, no such file" serial "$work/nowhere" -
row "serial, a plan that is refused" serial "$ledger/sessions.txt" -
row "serial, a word too few" serial -
row "no words"
row "--help" --help
row "--version" --version
[ "$failed" -eq 0 ] || { echo "tests/system/allocations.sh: $failed of these failed" >&2; exit 1; }
