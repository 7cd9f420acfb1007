#!/bin/sh
# A million random events at two links and a million at two channels, from a table of eight seeds: messages are sent,
# frames made, and one of the last 26 frames of an end comes to the other, so that frames are lost, come again, and are
# overtaken by up to 25 others. It counts what the frames were, and how many messages followed one that was taken; and it
# fails where a frame is refused, a link takes or keeps what wasn't sent with that number, or a thing isn't at one place.
# Needs rt.
#
#   sh bench/reordering.sh
set -eu
top=$(cd "$(dirname "$0")/.." && pwd)
uses="token_channel window_link frame_codec office_map bottle_values rand_core rand_pcg"
. "$top/bench/shared/crate.sh"
built=$work/crates/$program/out/$program
for kind in links channels; do
    for seed in 0 1 2 7 42 1984 65537 4294967295; do
        told=$("$built" "$kind" "$seed" 125000 26)
        echo "$kind, seed $seed: $told"
        case $told in
        *" 0 wrong") ;;
        *) exit 1 ;;
        esac
    done
done
