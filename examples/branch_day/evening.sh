#!/bin/sh
# The evening of a day of offices: each is closed, its store fetched, the day audited, and each opened under the next day's plan. Started
# again it goes on where it broke off.
#
#   evening.sh DAY OFFICES
#
# DAY is a folder with the day's plan.txt. It gets the stores, report.txt and left.txt; the next plan.txt goes into the folder beside it that
# is named by the next run number. OFFICES has a line `NAME PLACE` for each office: its folder, HOST:FOLDER, or with COPY=cp one of this
# machine. There each day has a folder, named by its run number. DRINK is the program here, CONTROL the systemctl there.
set -u
copy=${COPY:-scp} drink=${DRINK:-drink} control=${CONTROL:-systemctl}
day=$1 offices=$2

fail() {
    echo "evening: $*" >&2
    exit 1
}

run_of() {
    awk '$1 == "plan" { print $4; exit }' "$1"
}

# Does a command in the office's folder.
at() {
    case $copy in
    cp) (cd "$place" && sh -c "$1") ;;
    *) ssh -n "${place%%:*}" "cd '${place#*:}' && $1" ;;
    esac
}

# Does a step for each office for which it isn't done. Where one fails the others have it, and nothing comes after it.
each() {
    behind=
    while read -r name place || [ "$name" ]; do
        case $name in '' | '#'*) continue ;; esac
        [ ! -e "$day/$name.$1" ] || continue
        if "$1" < /dev/null && : > "$day/$name.$1"; then echo "$1 $name"; else behind="$behind $name"; fi
    done < "$offices"
    [ -z "$behind" ] || fail "can't $1$behind"
}

# Its plan has to be that of the day.
compare() {
    $copy "$place/$run/plan.txt" "$day/$name.part" && cmp "$day/$name.part" "$day/plan.txt" >&2
}

close() {
    at "touch $run/closed && $control stop drink@$name.socket drink@$name.service"
}

fetch() {
    $copy "$place/$run/store" "$day/$name.part" && mv "$day/$name.part" "$day/$name.store"
}

# The next plan, which has to be the one that is there.
audit() {
    "$drink" audit "$day/plan.txt" "$day"/*.store --plan "$day/next.part" --left "$day/left.txt" > "$day/report.txt" ||
        fail "the audit of $day: $(cat "$day/report.txt")"
    next=$(run_of "$day/next.part")
    tomorrow=$(dirname "$day")/$next
    if [ -e "$tomorrow/plan.txt" ]; then
        cmp "$day/next.part" "$tomorrow/plan.txt" >&2 || fail "$tomorrow/plan.txt isn't what the audit of $day gives"
    else
        mkdir -p "$tomorrow" && mv "$day/next.part" "$tomorrow/plan.txt" || fail "$tomorrow/plan.txt can't be made"
    fi
}

# The next plan, in place of none or of the same, and the office's sessions that are left.
send() {
    awk -v it="$name" '$1 == "session" { is_its = $2 == it } is_its' "$day/left.txt" > "$day/$name.left" &&
        at "mkdir -p $next" &&
        $copy "$tomorrow/plan.txt" "$place/$next/plan.part" &&
        $copy "$day/$name.left" "$place/$next/left.txt" &&
        at "cd $next && { [ ! -e plan.txt ] || cmp plan.part plan.txt >&2; } && mv plan.part plan.txt"
}

# An empty store is a new one.
open() {
    at "{ [ -e $next/store ] || : > $next/store; } && ln -sfn $next today.new && mv -T today.new today" &&
        at "$control start drink@$name.socket drink@$name.service"
}

[ -r "$offices" ] || fail "$offices can't be read"
run=$(run_of "$day/plan.txt") && [ "$run" ] || fail "$day/plan.txt has no plan"
exec 9> "$day/lock" && flock -n 9 || fail "another one is at work in $day"
each compare
each close
each fetch
audit
each send
each open
cat "$day/report.txt"
