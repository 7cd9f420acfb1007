#!/bin/sh
# Prints how many bytes a journal's entry and a frame of a world take. A vector of them that grows may have room for as many again.
# Needs rt.
#
#   sh bench/sim_sizes.sh
set -eu
top=$(cd "$(dirname "$0")/.." && pwd)
uses="site_core frame_world"
. "$top/bench/shared/crate.sh"
"$work/crates/$program/out/$program"
