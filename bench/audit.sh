#!/bin/sh
# What `drink audit` takes for journals of two offices, and of sixteen in a ring, up to the limit of a journal: time, whose growth
# with twice the entries is to be seen, memory, and instructions; and what reading them takes by itself. Then the time for journals
# that were made so that it might be long (shared/crafted.py). `docs/BENCHMARKS.md` has the figures. It needs a program that is built, awk,
# python3, and GNU time; for the counts of instructions valgrind. It fails only where the program doesn't audit the journals as it
# is to: the report has to have each session and the values at last.
#
#   sh bench/audit.sh [PROGRAM]        PROGRAM is crates/drink/out/drink where it is left out
#
# The folder of temporary files (TMPDIR) needs 2 GB, and the largest audit some 4 GB of memory. ENTRIES, in the environment, are the
# lengths of a journal in place of those below.
set -eu
top=$(cd "$(dirname "$0")/.." && pwd)
. "$top/bench/shared/program.sh"

# OFFICES ENTRIES: a plan, and a journal of so many entries for each office.
journals() {
    empty
    awk -v offices="$1" -v entries="$2" -v work="$work" -f "$top/bench/audit_journals.awk"
}

# KIND ENTRIES: the same of two offices, crafted.
crafted() {
    empty
    python3 "$top/bench/shared/crafted.py" "$1" "$2" "$work"
}

empty() {
    rm -f "$work"/journal.* "$work/plan" "$work/values" "$work/sessions"
}

# The bytes of all journals.
bytes() {
    cat "$work"/journal.* | wc -c
}

# Fails where the report isn't that of all sessions and of the values that the journals tell.
is_reported() {
    values=$(wc -l < "$work/values")
    finished=$(grep -c ' done reads ' "$work/printed") || true
    { echo 'unfinished 0'; cat "$work/values"; } > "$work/end"
    if [ "$finished" != "$(cat "$work/sessions")" ] || ! tail -n $((values + 1)) "$work/printed" | cmp -s - "$work/end"; then
        echo "$0: the report isn't that of the journals" >&2
        exit 1
    fi
}

# Audits the journals, and prints the milliseconds of a processor, the median of three runs, and the most memory, in KiB; or -.
takes() {
    if [ ! -x /usr/bin/time ]; then
        "$program" audit "$work/plan" "$work"/journal.* > "$work/printed"
        echo '- -'
        return
    fi
    for run in 1 2 3; do
        /usr/bin/time -o "$work/took" -f '%U %S %M' "$program" audit "$work/plan" "$work"/journal.* > "$work/printed"
        awk '{ printf "%d %d\n", 1000 * ($1 + $2) + 0.5, $3 }' "$work/took"
    done | sort -n | sed -n 2p
}

# WHAT: the instructions of an audit that is `woven` or `refused`, or -. Where memory grows, the C library copies it by one
# instruction that moves as many bytes as it is told, and clears it by another; callgrind counts either once for each byte. So it is
# told to do it by others.
instructions() {
    if ! command -v valgrind > /dev/null; then
        echo -
        return
    fi
    came=woven
    GLIBC_TUNABLES=glibc.cpu.x86_rep_movsb_threshold=1000000000:glibc.cpu.x86_rep_stosb_threshold=1000000000 \
        valgrind --tool=callgrind --callgrind-out-file="$work/callgrind" \
        "$program" audit "$work/plan" "$work"/journal.* > /dev/null 2> "$work/log" || came=refused
    if [ "$came" != "$1" ]; then
        echo "$0: the journals aren't $1" >&2
        exit 1
    fi
    sed -n 's/.*Collected : \([0-9]*\).*/\1/p' "$work/log"
}

# ALL NONE COUNT: what one of so many takes, or -.
for_each() {
    if [ "$1" = - ]; then
        echo -
    else
        echo "$((($1 - $2) / $3))"
    fi
}

# The last journal gets a line that is no entry: all journals are read, and it is refused; nothing is woven.
refuse_last() {
    last=$(ls "$work"/journal.* | tail -n 1)
    echo '0 do nothing = done' >> "$last"
}

# NOW BEFORE: by how much the one is more than the other, with two digits, or -.
growth() {
    awk -v now="$1" -v before="$2" 'BEGIN { if (now == "-" || before == "-" || before == 0) print "-"; else printf "%.2f\n", now / before }'
}

# MEMORY BYTES COUNT: the bytes of memory for each of so many, besides so many bytes of text, or -.
besides() {
    if [ "$1" = - ]; then
        echo -
    else
        echo "$((($1 * 1024 - $2) / $3))"
    fi
}

printf '| %s | %s | %s | %s | %s | %s | %s | %s |\n' Offices 'Entries of each' Bytes Milliseconds 'By half as many' 'Memory, KiB' 'For an entry, bytes' 'Besides its text'
for offices in 2 16; do
    before=-
    for entries in ${ENTRIES:-125000 250000 500000 1000000}; do
        journals "$offices" "$entries"
        set -- $(takes)
        is_reported
        all=$((offices * entries))
        size=$(bytes)
        printf '| %s | %s | %s | %s | %s | %s | %s | %s |\n' "$offices" "$entries" "$size" "$1" "$(growth "$1" "$before")" "$2" "$(besides "$2" 0 "$all")" "$(besides "$2" "$size" "$all")"
        before=$1
    done
done

printf '\n| %s | %s | %s | %s | %s | %s | %s |\n' Offices 'Entries of each' Bytes Instructions 'For an entry' 'For reading' 'For a byte'
for row in '2 50000' '2 100000' '16 6250' '16 12500'; do
    set -- $row
    journals "$1" 0
    none=$(instructions woven)
    refuse_last
    header=$(instructions refused)
    journals "$1" "$2"
    size=$(bytes)
    all=$(instructions woven)
    refuse_last
    reading=$(instructions refused)
    printf '| %s | %s | %s | %s | %s | %s | %s |\n' "$1" "$2" "$size" "$all" "$(for_each "$all" "$none" $(($1 * $2)))" "$reading" "$(for_each "$reading" "$header" "$size")"
done

printf '\n| %s | %s | %s | %s | %s | %s |\n' Crafted 'Entries of each' Bytes Milliseconds 'By half as many' 'Memory, KiB'
for kind in values resends; do
    before=-
    for entries in ${ENTRIES:-125000 250000 500000 1000000}; do
        crafted "$kind" "$entries"
        set -- $(takes)
        is_reported
        printf '| %s | %s | %s | %s | %s | %s |\n' "$kind" "$entries" "$(bytes)" "$1" "$(growth "$1" "$before")" "$2"
        before=$1
    done
done
