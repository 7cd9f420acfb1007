#!/bin/sh
# Counts the instructions of a call that tells the outcome of a ticket, at an office with 100 finished sessions, and with
# 1,000 and 10,000: what a run with 100,000 calls, of all tickets, has more than one without. Needs rt and valgrind.
#
#   sh bench/outcome.sh
set -eu
top=$(cd "$(dirname "$0")/.." && pwd)
uses="site_core session_language session_programs office_map"
. "$top/bench/shared/crate.sh"
for finished in 100 1000 10000; do
    none=$(instructions "$finished" 0)
    all=$(instructions "$finished" 100000)
    echo "$finished finished: $(((all - none) / 100000)) instructions"
done
