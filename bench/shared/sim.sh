# For the scripts that run `drink sim`: what a run takes on what is in the files `plan`, `sessions` and `script` of the
# folder `work`. `program` is the program.

# Each of these runs the program, and fails where that does.

sim() {
    "$@" "$program" sim "$work/plan" "$work/sessions" "$work/script" > /dev/null || exit 1
}

# The instructions of a run, or -.
instructions() {
    if command -v valgrind > /dev/null; then
        sim valgrind --tool=callgrind --callgrind-out-file="$work/callgrind" 2> "$work/log"
        sed -n 's/.*Collected : \([0-9]*\).*/\1/p' "$work/log"
    else
        sim env
        echo -
    fi
}

# The most memory of a run, in KiB, or -.
memory() {
    if [ -x /usr/bin/time ]; then
        sim /usr/bin/time -v 2> "$work/log"
        sed -n 's/.*Maximum resident set size (kbytes): //p' "$work/log"
    else
        echo -
    fi
}

# The milliseconds of a processor that a run takes, the median of five, or -.
milliseconds() {
    if [ -x /usr/bin/time ]; then
        for _ in 1 2 3 4 5; do
            sim /usr/bin/time -o "$work/took" -f '%U %S'
            awk '{ printf "%d\n", 1000 * ($1 + $2) + 0.5 }' "$work/took"
        done > "$work/times"
        sort -n "$work/times" | sed -n 3p
    else
        echo -
    fi
}

# ALL NONE COUNT: what one of so many takes, or -.
for_each() {
    if [ "$1" = - ]; then
        echo -
    else
        echo "$((($1 - $2) / $3))"
    fi
}

# LINE: runs the script, and fails where no line that is printed, in the file `printed`, is this one.
prints() {
    "$program" sim "$work/plan" "$work/sessions" "$work/script" > "$work/printed"
    if ! grep -qx "$1" "$work/printed"; then
        echo "$0: the run doesn't print '$1'" >&2
        exit 1
    fi
}
