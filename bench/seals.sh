#!/bin/sh
# Counts the instructions of sealing a bottle's frame, of opening it, and of refusing it with a bit turned over, over 1,000
# calls of each: what a run with them has more than one without. The loop and the call are in the count. Then how long the
# processor takes for 300,000 of each. Needs rt and valgrind.
#
#   sh bench/seals.sh
set -eu
top=$(cd "$(dirname "$0")/.." && pwd)
uses="datagram_seals"
. "$top/bench/shared/crate.sh"

# The microseconds of the processor for each call of a run with these words.
microseconds() {
    python3 - "$work/crates/$program/out/$program" "$@" <<'PYTHON'
import resource, subprocess, sys
subprocess.run(sys.argv[1:], check=True, stdout=subprocess.DEVNULL)
used = resource.getrusage(resource.RUSAGE_CHILDREN)
print(f"{(used.ru_utime + used.ru_stime) / 300_000 * 1e6:.2f}")
PYTHON
}

none=$(instructions 0 0 0)
seals=$(instructions 1000 0 0)
opens=$(instructions 0 1000 0)
refuses=$(instructions 0 0 1000)
echo "seal: $(((seals - none) / 1000)) instructions, $(microseconds 300000 0 0) microseconds"
echo "open: $(((opens - none) / 1000)) instructions, $(microseconds 0 300000 0) microseconds"
echo "refuse: $(((refuses - none) / 1000)) instructions, $(microseconds 0 0 300000) microseconds"
