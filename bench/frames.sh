#!/bin/sh
# Counts the instructions of one decode and of one encode of a bottle's frame, with a number and with the longest text, over
# 10,000 calls of each: what a run with them has more than one without. The loop and the call are in the count. Needs rt and valgrind.
#
#   sh bench/frames.sh
set -eu
top=$(cd "$(dirname "$0")/.." && pwd)
uses="frame_codec bottle_values"
. "$top/bench/shared/crate.sh"
none=$(instructions 0 0 0 0)
decodes=$(instructions 10000 0 0 0)
encodes=$(instructions 0 10000 0 0)
text_decodes=$(instructions 0 0 10000 0)
text_encodes=$(instructions 0 0 0 10000)
echo "decode: $(((decodes - none) / 10000)) instructions"
echo "encode: $(((encodes - none) / 10000)) instructions"
echo "decode, a text of 64 bytes: $(((text_decodes - none) / 10000)) instructions"
echo "encode, a text of 64 bytes: $(((text_encodes - none) / 10000)) instructions"
