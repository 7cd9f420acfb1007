#!/bin/sh
# Hostile datagrams at offices that run: a million of all kinds, each answered as a plain decoder and a plain channel say (hostile_fuzz.py); what a
# refused one takes (hostile_refused.py); sessions a second beside a flood (hostile_beside.py); and runs of `live` beside one (hostile_live.py). It needs a
# program that is built, python3, a C compiler and valgrind, and for the sessions a second four processors with no other work. It
# fails where a datagram is answered otherwise, or an honest session doesn't finish.
#
#   sh bench/hostile.sh [PROGRAM]        PROGRAM is crates/drink/out/drink where it is left out
#
# DATAGRAMS, in the environment, is how many the first sends, 1000000 where it is left out, and SEED is what they are drawn from.
set -eu
top=$(cd "$(dirname "$0")/.." && pwd)
. "$top/bench/shared/program.sh"
export PYTHONDONTWRITEBYTECODE=1
cc -O2 -o "$work/flood" "$top/bench/hostile_flood.c"
cc -O2 -shared -fPIC -o "$work/counts.so" "$top/bench/shared/counts.c" -ldl
python3 "$top/bench/hostile_fuzz.py" "$program" "$work" "${DATAGRAMS:-1000000}" "${SEED:-1}"
echo
python3 "$top/bench/hostile_refused.py" "$program" "$work"
echo
python3 "$top/bench/hostile_beside.py" "$program" "$work/flood" "$work/counts.so" "$work"
echo
python3 "$top/bench/hostile_live.py" "$program" "$work/flood" "$work"
