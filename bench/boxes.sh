#!/usr/bin/env bash
# What a call takes, in microseconds of the processor: the least member of a zone, the split of a zone, and the look-up
# among kept conflicts, on 256 slots. Builds the program crates/benches, whose `boxes` says what its words mean, and
# takes the time of a run of no rounds off, so that making the settings doesn't count.
set -eu
. "$(dirname "$0")/common.sh"
build_bench boxes 0 0 0

# report NAME CALLS ROUNDS..: a run of these rounds makes that many calls
report() {
  local name=$1 calls=$2
  shift 2
  local taken=$((($(taken_by "$@") - none) * 1000000 / calls))
  printf '%-14s %9d calls %8d.%03d us a call\n' "$name" "$calls" $((taken / 1000)) $((taken % 1000))
}

none=$(taken_by 0 0 0)
report write_best 1000000 62500 0 0
report split 1000 0 1000 0
report contained_in 16000 0 0 1000
