#!/usr/bin/env bash
# What the check of a log takes, in nanoseconds of the processor for each literal that it reads. The log has 100,000
# steps of one to ten hints, all of them good. The literals counted are those of the clauses and steps that hints name;
# the two of each step's own clause, which a check reads too, are not. Builds the program crates/benches, whose
# `refcheck` says what its words mean, and takes the time of a run of no rounds off, so that making the log doesn't count.
set -eu
. "$(dirname "$0")/common.sh"
build_bench refcheck 0 0

steps=100000
rounds=100
said=$("${program[@]}" $steps 1)
printf '%s\n' "$said"
hints=$(sed -n 's/.* steps, \([0-9]*\) hints.*/\1/p' <<<"$said")
literals=$(sed -n 's/.* \([0-9]*\) literals of .*/\1/p' <<<"$said")

# report THING COUNT: a round reads so many of them
report() {
  local taken=$((milliseconds * 100000000 / (rounds * $2)))
  printf '%9d %-9s a round %6d.%02d ns each\n' "$2" "$1" $((taken / 100)) $((taken % 100))
}

milliseconds=$(($(taken_by $steps $rounds) - $(taken_by $steps 0)))
report steps $steps
report hints "$hints"
report literals "$literals"
