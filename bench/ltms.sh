#!/usr/bin/env bash
# What a call of the truth maintenance system takes, in microseconds of the processor, and in nanoseconds for each
# literal touched. Builds the program crates/benches, whose `ltms` says what its settings mean, and takes the time
# of a run of no rounds off, so that adding the clauses doesn't count.
#
#   chain   one literal implies all others of a chain: an assumption labels each of them, a retraction unlabels each
#   random  clauses of three random literals, with few literals held, and with so many that contradictions come and go
#
# Of random clauses a literal counts as touched where its label after a call is another than before, or, after a call
# that ends a contradiction, another than before that contradiction. The program counts them in a run of its own, which
# isn't timed. A label that a retraction takes back and gives again doesn't count, and nothing that is done during a
# contradiction does.
#
# Sizes other than these are given by the environment, as in: length=1000 few_rounds=1 many_rounds=1 bench/ltms.sh
set -eu
. "$(dirname "$0")/common.sh"
build_bench ltms 'chain 0 0'

: "${length:=100000}" "${chain_rounds:=100}"
: "${bools:=20000}" "${clauses:=60000}"
: "${few:=50}" "${few_calls:=1000}" "${few_rounds:=1000}"
: "${many:=500}" "${many_calls:=3000}" "${many_rounds:=300}"

# report SETTING ROUNDS COUNTED: a run of these rounds, in each of which as much is done as the program says of COUNTED
report() {
  local setting=$1 rounds=$2 said assumed retracted touched milliseconds
  said=$("${program[@]}" "$3")
  read -r assumed retracted touched < <(
    sed 's/.*: \([0-9]*\) assumed, \([0-9]*\) retracted,.* \([0-9]*\) labels changed$/\1 \2 \3/' <<<"$said"
  )
  milliseconds=$(($(taken_by "$setting $rounds") - $(taken_by "$setting 0")))
  printf '%s\n' "$said"
  per call 1000 us $((rounds * (assumed + retracted)))
  per touched 1000000 ns $((rounds * touched))
}

# per THING FACTOR UNIT COUNT: what one of them takes; a millisecond has so many of the unit
per() {
  local taken=$((milliseconds * $2 * 1000 / $4))
  printf '%12d %-8s %8d.%03d %s each\n' "$4" "$1" $((taken / 1000)) $((taken % 1000)) "$3"
}

report "chain $length" "$chain_rounds" "chain $length 1"
few_sizes="$bools $clauses $few $few_calls"
report "random $few_sizes" "$few_rounds" "count $few_sizes"
many_sizes="$bools $clauses $many $many_calls"
report "random $many_sizes" "$many_rounds" "count $many_sizes"
