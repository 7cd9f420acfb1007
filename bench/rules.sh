#!/bin/sh
# Counts the instructions of one call of each rule of the forks and of the bottles where its guard is false, at a hungry
# and thirsty office of the largest plan that has all it needs but from its last neighbour: what a run with 10,000 calls
# has more than one without. Needs rt and valgrind.
#
#   sh bench/rules.sh
set -eu
top=$(cd "$(dirname "$0")/.." && pwd)
uses="drinking_core dining_core office_map bottle_values"
. "$top/bench/shared/crate.sh"
none=$(instructions 10000 none)
for rule in hungry ask_fork give_fork eat leave start ask_bottle give_bottle drink finish; do
    all=$(instructions 10000 "$rule")
    echo "$rule: $(((all - none) / 10000)) instructions"
done
