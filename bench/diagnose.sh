#!/usr/bin/env bash
# What a diagnosis takes, in milliseconds of the processor, over plants of 8 to 256 valves: in a row, of which the last
# is commanded to open; the same with all commanded; a fan behind the first valve with one fault and with two; a ladder
# of two rows; and a propulsion branch of which one valve of each pair is commanded, so that one fault explains that
# there is no thrust, and both, so that two do; of each 1, 4 and 64 candidates, and 64 no two of which lead to one state
# (64d). The time of an empty session over the same plant is taken off, and stands beside; then the number of candidates
# listed, and of trials, conflicts, and questions to the solver for each trial; and what these are beyond one a trial
# for each choice of the conflicts, which a reason costs. The last line is of a whole session of 20 rounds over a
# row of 32 valves. Builds the program first, and crates/benches, whose `session` counts. Sizes may be given.
set -eu
. "$(dirname "$0")/common.sh"
prepare "$@"
cli=("${program[@]}")
build_bench session absent
counter=("${program[@]}")
program=("${cli[@]}")
: >"$work/none.ses"

# the counts of a session's diagnoses: trials, conflicts, choices in them, questions
counts_of() {
  "${counter[@]}" "$1 $2" | sed 's/.* \([0-9]*\) trials, \([0-9]*\) conflicts of \([0-9]*\) choices, \([0-9]*\) questions.*/\1 \2 \3 \4/'
}

# a quotient with two digits behind the point
quotient() {
  awk -v a="$1" -v b="$2" 'BEGIN { if (b > 0) printf "%.2f", a / b; else printf "-" }'
}

# report NAME VALVES K MODEL SESSION EMPTY-SESSION
report() {
  local plant whole listed trials conflicts choices questions
  plant=$(taken_by run "$4" "$6")
  whole=$(taken_by run "$4" "$5")
  listed=$("${program[@]}" run "$4" "$5" | awk '/^(un)?settled/ { listed += $2 } END { print listed + 0 }')
  read -r trials conflicts choices questions <<<"$(counts_of "$4" "$5")"
  printf '%-10s %6d %4s %10d %10d %7d %7d %9d %8s %8s\n' "$1" "$2" "$3" "$plant" $((whole - plant)) "$listed" \
    "$trials" "$conflicts" "$(quotient "$questions" "$trials")" "$(quotient $((questions - trials)) "$choices")"
}

printf '%-10s %6s %4s %10s %10s %7s %7s %9s %8s %8s\n' plant valves k 'plant ms' 'query ms' listed trials conflicts \
  a-trial a-choice
for kind in row opened fan twofaults ladder branch branches; do
  for n in $sizes; do
    "$here/make_plants.py" "$kind" "$n" "$work"
    for k in 1 4 64; do
      report "$kind" "$n" "$k" "$work/$kind.lv" "$work/$kind.$k.ses" "$work/none.ses"
    done
    sed 's/^track 64$/track 64 distinct/' "$work/$kind.64.ses" >"$work/$kind.64d.ses"
    report "$kind" "$n" 64d "$work/$kind.lv" "$work/$kind.64d.ses" "$work/none.ses"
  done
done
"${program[@]}" generate model 30 >"$work/drive.lv"
"${program[@]}" generate session 30 >"$work/drive.ses"
report drive 32 - "$work/drive.lv" "$work/drive.ses" "$work/none.ses"
