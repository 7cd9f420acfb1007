#!/bin/sh
# Counts the instructions of one arrival at a link, over 10,000 links: what a run with the arrivals has more than one
# without. The call is in the count. First of the next message, where some messages wait and the count acknowledges some
# of them; then of one that is kept; then of the next message, after which the caller takes what is kept, so that so many
# are taken at once. Needs rt and valgrind.
#
#   sh bench/links.sh
set -eu
top=$(cd "$(dirname "$0")/.." && pwd)
uses="window_link frame_codec bottle_values"
. "$top/bench/shared/crate.sh"

# WAITING KEPT NUMBER COUNT FOLLOWS: of one arrival.
each() {
    without=$(instructions 10000 "$1" "$2" 0 0 0)
    with=$(instructions 10000 "$1" "$2" "$3" $(($4 + 1)) "$5")
    echo $(((with - without) / 10000))
}

for pair in "0 0" "1 0" "18 0" "1 1" "9 1" "18 1" "18 9" "18 18"; do
    set -- $pair
    echo "waiting $1, acknowledged $2: $(each "$1" 0 1 "$2" 0) instructions"
done
for number in 2 18; do
    echo "number $number, kept: $(each 0 0 $number 0 0) instructions"
done
echo "number 19, dropped: $(each 0 0 19 0 0) instructions"
for kept in 0 1 8 17; do
    echo "kept $kept, taken at once $((kept + 1)): $(each 0 $kept 1 0 1) instructions"
done
