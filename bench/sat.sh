#!/usr/bin/env bash
# What solving takes, in microseconds of the processor for each call, and in nanoseconds for each literal forced and for each
# conflict, with what the calls came to: satisfiable or not, literals that clauses forced, conflicts, and how long the logs
# of refutations are. Builds the program crates/benches, whose `sat` says what its settings mean, and takes the time of
# a run of no calls off, so that making the clauses doesn't count.
#
#   random   sets of clauses of three random literals, 4.2 for each boolean, where both answers are about as frequent
#   pigeons  one pigeon more than there are holes: small sets, and each refutation is long
#   chain    one literal implies all others of a chain, and then the last one is assumed false too
#   valves   the model of 32 valves, with a random move of each part assumed: 500 calls on one set of clauses
#   turns    the same, but each call begins with the moves of the last one up to a random part
#
# Sizes other than these are given by the environment, as in: sets=5 largest=100 bench/sat.sh
set -eu
. "$(dirname "$0")/common.sh"
build_bench sat 'chain 0 0'

: "${sets:=20}" "${largest:=180}" "${length:=100000}" "${rounds:=10}" "${calls:=500}"

# report SETTING CALLS COUNT: a run of the setting with so many calls or rounds, in which that many calls are made; the
# logs are checked in a run of their own
report() {
  local told milliseconds forced conflicts
  told=$("${program[@]}" checked "$1 $2")
  echo "$told"
  milliseconds=$(($(taken_by "$1 $2") - $(taken_by "$1 0")))
  read -r forced conflicts <<<"$(sed 's/.* literals chosen, \([0-9]*\) forced, \([0-9]*\) conflicts.*/\1 \2/' <<<"$told")"
  printf '%12d calls, %d us each, %s ns a literal forced, %s ns a conflict\n' "$3" $((milliseconds * 1000 / $3)) \
    "$(share "$milliseconds" "$forced")" "$(share "$milliseconds" "$conflicts")"
}

# the nanoseconds for each of so many, - where there are none
share() {
  if [ "$2" -gt 0 ]; then echo $(($1 * 1000000 / $2)); else echo -; fi
}

for bools in 60 100 140 180; do
  if [ "$bools" -le "$largest" ]; then
    report "random $bools $((bools * 42 / 10)) $sets" 1 "$sets"
  fi
done
for holes in 4 5 6; do
  report "pigeons $((holes + 1)) $holes" "$rounds" "$rounds"
done
report "chain $length" "$rounds" $((2 * rounds))
report 'valves 30' "$calls" "$calls"
report 'turns 30' "$calls" "$calls"
