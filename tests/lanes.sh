#!/usr/bin/env bash
# Runs the built program over lanes/NN_of_MM.lanes, random interleavings of two to eight sessions with turns over the model
# random/MM.lv, and compares what it writes with NN_of_MM.out, which an independent reference program, which is not part of
# this repository, wrote; and has the lines of a session come to one lane.
# shellcheck source-path=SCRIPTDIR source=common.sh
. "$(dirname "$(readlink -f "${BASH_SOURCE[0]}")")/common.sh"

for lines in "$root"/tests/lanes/*.lanes; do
    name="$(basename "$lines" .lanes)"
    run lanes "$root/tests/random/${name##*_of_}.lv" "$lines" </dev/null
    expect_files "lanes/$name" 0 "${lines%.lanes}.out" /dev/null
done

# A lane in which no turn goes on with a query is a session by itself.
model="$root/examples/valve.lv"
session="$root/examples/first.ses"
sed 's/^/@a /' "$session" >"$work/alone.lanes"
run run "$model" "$session" </dev/null
sed 's/^/@a /' "$work/out" >"$work/alone.out"
run lanes "$model" "$work/alone.lanes" </dev/null
expect_files 'one lane alone' 0 "$work/alone.out" /dev/null

verdict
