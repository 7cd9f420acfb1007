#!/bin/sh
# What `drink serial` takes on the largest inputs that its limits allow, and on 1,024 sessions of four usual kinds. Each row of
# the tables that it prints is an input; `docs/BENCHMARKS.md` says what they are. It needs a program that is built, awk, GNU
# date and GNU time, and for the counts of instructions valgrind. It prints figures, and fails only where the program doesn't
# run on an input as it is to.
#
#   sh bench/serial.sh [PROGRAM]        PROGRAM is crates/drink/out/drink where it is left out
set -eu
top=$(cd "$(dirname "$0")/.." && pwd)
. "$top/bench/shared/program.sh"

# 16 offices, a to p. Between each two of them a pair, and of each pair the first RECORDS of 8 records, named as ab0 to
# ab7. What is left of SIZE bytes is comments.
cat > "$work/plan.awk" <<'AWK'
function put(line) { print line; bytes += length(line) + 1 }
function name(i) { return substr("abcdefghijklmnop", i, 1) }
BEGIN {
    put("plan 1 run 1")
    for (i = 1; i <= 16; i++) put("office " name(i) " -")
    for (i = 1; i <= 16; i++) for (j = i + 1; j <= 16; j++) {
        put("pair " name(i) " " name(j) " fork " name(i))
        for (k = 0; k < records; k++)
            put("record " name(i) name(j) k " " name(i) " " name(j) " 1 at " name(i))
    }
    comment = sprintf("#%62s", "")
    while (bytes < size) put(substr(comment, 1, size - bytes - 1))
}
AWK

# Sessions of one kind, as many as SIZE bytes allow, and one for each 1,024 bytes of SIZE at most. Each begins with a
# `require` that holds where TRUTH is 1, and else ends it there. Only the kinds `spaced` and `limit` have spaces round operators.
cat > "$work/sessions.awk" <<'AWK'
function joined(first, operator, term, count,    all) {
    all = first
    while (count-- > 0) all = all operator term
    return all
}
function sum(term, terms) { return joined(term, " + ", term, terms - 1) }
function times(line, count) { return joined("", "", line "\n", count) }
function name(i) { return substr("abcdefghijklmnop", i + 1, 1) }
function pair(i, j) { return i < j ? name(i) name(j) : name(j) name(i) }
function within(office, body) {
    return "session " office "\nrequire 1 == " truth " else 1\n" body "end\n"
}

# 1,024 bytes that read and set 16 records of an office, with these statements at their end.
function mixed(i, last,    body, front, j, k) {
    for (j = 1; j <= 2; j++) {
        front = pair(i, (i + j) % 16)
        for (k = 0; k < 8; k++) body = body "set " front k " = read " front k " + 1\n"
    }
    for (k = 0; k < 8; k++) body = body "give read " front k "\n"
    return within(name(i), body last)
}
function long_sum(terms) { return times("let v = " sum("--1", terms), 1) }

# All operands are the last of 32 variables.
function variables(    all, names, k) {
    names = "abcdefghijklmnopqrstuvwxyzABCDEF"
    for (k = 1; k <= 32; k++) all = all "let " substr(names, k, 1) " = 0\n"
    return within("a", all times("let F = " sum("--F", 30), 82) times("let F = " sum("--F", 23), 1))
}

# It needs 16 records, and reads the last of them again and again.
function reads(    all, k) {
    all = "let v = 0"
    for (k = 0; k < 8; k++) all = all " + read ab" k
    for (k = 0; k < 8; k++) all = all " + read ac" k
    return within("a", times(all, 1) times("let v = " sum("read ac7", 32), 20))
}

# It sets 16 records and gives 50 times, always the longest value.
function gives(    all, k) {
    all = "let v = 9223372036854775807\n"
    for (k = 0; k < 8; k++) all = all "set ab" k " = v\nset ac" k " = v\n"
    return within("a", all times("give v", 50))
}

# Ten times `1 + (`, the one within the other, round a sum of products.
function nested(    core) {
    core = sum(joined("1", " * ", "1", 5), 7)
    return within("a", times("let v = " joined("", "", "1 + (", 10) core joined("", "", ")", 10), 69))
}

function next_session(i) {
    if (kind == "spaced") return mixed(i, long_sum(30) long_sum(30) long_sum(20) "let v = 0\n")
    if (kind == "mixed") return mixed(i, long_sum(30) long_sum(30) long_sum(30) long_sum(30) long_sum(16))
    if (kind == "numbers" || kind == "limit") return within("a", times("let v = " sum("--1", 30), 83) long_sum(9))
    if (kind == "variables") return variables()
    if (kind == "reads") return reads()
    if (kind == "nested") return nested()
    if (kind == "gives") return gives()
    if (kind == "statements") return within("a", times("let v = 1", 255))
}
function packed(text) {
    gsub(/ == /, "==", text)
    gsub(/ = /, "=", text)
    gsub(/ \+ /, "+", text)
    gsub(/ \* /, "*", text)
    return text
}

# A text that has one line again and again.
function lines(line) {
    for (bytes = 0; bytes + length(line) + 1 <= size; bytes += length(line) + 1) print line
}

# A line of nothing but parentheses after `give`.
function parentheses(    count) {
    printf "session a\ngive "
    for (count = size - 20; count > 0; count--) printf "("
    printf "\nend\n"
}

BEGIN {
    if (kind == "comments") lines(sprintf("# %1021s", "what stands in a comment says nothing"))
    else if (kind == "blank") lines("")
    else if (kind == "parentheses") parentheses()
    else for (count = 0; count < size / 1024; count++) {
        text = next_session(count % 16)
        if (kind != "spaced" && kind != "limit") text = packed(text)
        bytes += length(text)
        if (bytes > size) exit
        printf "%s", text
    }
}
AWK

# The nodes of all expressions and conditions of a text of sessions.
cat > "$work/nodes.awk" <<'AWK'
/^(let|set) / { sub(/^[^=]*= ?/, "give ") }
/^(give|require) / {
    sub(/^[a-z]+ /, "")
    sub(/ else [0-9]+$/, "")
    gsub(/read /, "")
    nodes += gsub(/[A-Za-z0-9_]+/, "") + gsub(/[-+*]/, "") + gsub(/[=<>!]+/, "")
}
END { print nodes + 0 }
AWK

plan() {
    awk -v records="$1" -v size="$2" -f "$work/plan.awk"
}

sessions() {
    awk -v kind="$1" -v size="$2" -v truth="$3" -f "$work/sessions.awk"
}

bytes() {
    wc -c < "$1" | tr -d ' '
}

# STATUS COMMAND..: runs a command that runs the program, which is to end with this status.
check() {
    wanted=$1
    status=0
    shift
    "$@" > "$work/out" 2> "$work/err" || status=$?
    if [ "$status" -ne "$wanted" ]; then
        head -n 5 "$work/err" >&2
        echo "bench/serial.sh: status $status, and not $wanted, of: $*" >&2
        exit 1
    fi
}

# Each of these takes a folder with a plan and sessions, and the status with which the program is to end on them.

milliseconds() {
    for _ in 1 2 3 4 5; do
        before=$(date +%s%N)
        check "$2" "$program" serial "$1/plan" "$1/sessions"
        echo $(($(date +%s%N) - before))
    done | sort -n | awk 'NR == 3 { printf "%.1f", $1 / 1000000 }'
}

memory() {
    check "$2" /usr/bin/time -v "$program" serial "$1/plan" "$1/sessions"
    sed -n 's/.*Maximum resident set size (kbytes): //p' "$work/err"
}

instructions() {
    if ! command -v valgrind > /dev/null; then
        echo 0
        return
    fi
    check "$2" valgrind --tool=callgrind --callgrind-out-file="$work/profile" "$program" serial "$1/plan" "$1/sessions"
    sed -n 's/.*Collected : //p' "$work/err"
}

# INPUT STATUS FILE START: a line of the table. FILE is what is measured, `plan` or `sessions`, and START the count of
# instructions without it. INPUT.idle has as many bytes and works out nothing, INPUT.half has half of them.
row() {
    input=$work/$1
    for it in "$input" "$input.idle" "$input.half"; do
        check "$2" "$program" serial "$it/plan" "$it/sessions"
    done
    awk -v name="$1" -v start="$4" -v bytes="$(bytes "$input/$3")" -v half_bytes="$(bytes "$input.half/$3")" \
        -v sessions="$(grep -c '^session' "$input/sessions")" -v nodes="$(awk -f "$work/nodes.awk" "$input/sessions")" \
        -v time="$(milliseconds "$input" "$2")" -v memory="$(memory "$input" "$2")" \
        -v all="$(instructions "$input" "$2")" -v idle="$(instructions "$input.idle" "$2")" \
        -v half="$(instructions "$input.half" "$2")" '
        function of(sum, count, digits) { return all > 0 && count > 0 ? sprintf("%." digits "f", sum / count) : "-" }
        BEGIN {
            # The first `require` of a session, with its three nodes, is worked out in both.
            node = of(all - idle, nodes - 3 * sessions, 1)
            growth = of((all - start) / bytes, (half - start) / half_bytes, 2)
            printf "| %s | %d | %d | %s | %d | %d | %d | %s | %s | %s |\n", name, bytes, nodes, time, memory,
                (16 * bytes + 4000000) / 1024, (all > 0 ? all - start : 0), of(idle - start, bytes, 1), node, growth
        }'
}

# NAME RECORDS SIZE: a plan without sessions.
plan_input() {
    mkdir "$work/$1"
    plan "$2" "$3" > "$work/$1/plan"
    : > "$work/$1/sessions"
}

# KIND: its sessions over the whole plan.
sessions_input() {
    for part in "" .idle .half; do
        plan_input "$1$part" 8 0
    done
    sessions "$1" 1048576 1 > "$work/$1/sessions"
    sessions "$1" 1048576 0 > "$work/$1.idle/sessions"
    sessions "$1" 524288 1 > "$work/$1.half/sessions"
}

plan_input least 0 0
printf 'plan 1 run 1\noffice a -\noffice b -\n' > "$work/least/plan"
plan_input none 8 0
for part in "" .idle; do
    plan_input "plan$part" 8 262144
    plan_input "records$part" 8 0
done
plan_input plan.half 4 131072
plan_input records.half 4 0
least=$(instructions "$work/least" 0)
none=$(instructions "$work/none" 0)
echo "Instructions of a run without sessions: $least on the least plan, $none on 960 records."
echo
echo "| Input | Bytes | Nodes worked out | Milliseconds | Memory, KiB | Allowed, KiB | Instructions | For a byte read | For a node | Growth |"
echo "|---|---|---|---|---|---|---|---|---|---|"
row plan 0 plan "$least"
row records 0 plan "$least"
for kind in spaced mixed limit numbers variables reads nested statements gives comments blank; do
    sessions_input "$kind"
    row "$kind" 0 sessions "$none"
done
sessions_input parentheses
row parentheses 1 sessions "$none"

# 1,024 sessions of a kind. `small`, on a ring of four offices: each adds to its office's record with the next one, and every second
# one to that with the one before. The others are on the whole plan. `light`: each adds to two records and gives one. `wide`: each adds
# to 16 records and gives four. `heavy`: each works nearly as long as a session may, in a loop over five long sums.
cat > "$work/usual.awk" <<'AWK'
function name(i) { return substr("abcdefghijklmnop", i + 1, 1) }
function pair(i, j) { return i < j ? name(i) name(j) : name(j) name(i) }
function adds(record) { return "set " record " = read " record " + 1\n" }
function small(i, n) {
    return adds(pair(i, (i + 1) % 4) 0) (n % 2 ? adds(pair(i, (i + 3) % 4) 0) : "") "give read " pair(i, (i + 1) % 4) 0 "\n"
}
function light(i, n) {
    return adds(pair(i, (i + 1 + n % 15) % 16) n % 8) adds(pair(i, (i + 1 + (n + 1) % 15) % 16) n % 8) "give read " pair(i, (i + 1 + n % 15) % 16) n % 8 "\n"
}
function wide(i, n,    body, front, j, k) {
    for (j = 0; j < 2; j++) {
        front = pair(i, (i + 1 + (n + j) % 15) % 16)
        for (k = 0; k < 8; k++) body = body adds(front k)
        for (k = 0; k < 2; k++) body = body "give read " front k "\n"
    }
    return body
}
function heavy(    sum, body, k) {
    for (k = 0; k < 31; k++) sum = sum " + 1"
    for (k = 0; k < 5; k++) body = body "let v = v" sum "\n"
    return "let v = 0\nrepeat 30\n" body "end\ngive v\n"
}
BEGIN {
    offices = kind == "small" ? 4 : 16
    for (k = 0; k < 1024; k++) {
        i = k % offices
        n = int(k / offices)
        if (kind == "small") body = small(i, n)
        if (kind == "light") body = light(i, n)
        if (kind == "wide") body = wide(i, n)
        if (kind == "heavy") body = heavy()
        printf "session %s\n%send\n", name(i), body
    }
}
AWK

echo
echo "| 1,024 sessions | Records of the plan | Bytes | Milliseconds | Memory, KiB | Instructions, with the plan's |"
echo "|---|---|---|---|---|---|"
for kind in small light wide heavy; do
    input=$work/usual.$kind
    mkdir "$input"
    if [ "$kind" = small ]; then
        printf 'plan 1 run 1\noffice a -\noffice b -\noffice c -\noffice d -\n' > "$input/plan"
        for both in 'a b' 'b c' 'c d' 'a d'; do
            set -- $both
            printf 'pair %s %s fork %s\nrecord %s%s0 %s %s 0 at %s\n' "$1" "$2" "$1" "$1" "$2" "$1" "$2" "$1" >> "$input/plan"
        done
    else
        plan 8 0 > "$input/plan"
    fi
    awk -v kind="$kind" -f "$work/usual.awk" > "$input/sessions"
    check 0 "$program" serial "$input/plan" "$input/sessions"
    echo "| $kind | $(grep -c '^record' "$input/plan") | $(bytes "$input/sessions") | $(milliseconds "$input" 0) | $(memory "$input" 0) | $(instructions "$input" 0) |"
done
