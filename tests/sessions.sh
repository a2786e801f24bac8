#!/usr/bin/env bash
# Runs the built program over the sessions sessions/NAME.ses and compares what it writes with NAME.out, which was worked
# out by hand: worked examples, each refusal on a new session and after a settled diagnosis, as many observations as may
# be held, a row of 32 valves with 2^32 candidates of cost 0, a propulsion system (whose replies an independent reference program gave). The model is
# the one here or in examples/ that a session's name begins with, or else the valve.
# shellcheck source-path=SCRIPTDIR source=common.sh
. "$(dirname "$(readlink -f "${BASH_SOURCE[0]}")")/common.sh"

for session in "$root"/tests/sessions/*.ses; do
    name="$(basename "$session" .ses)"
    model="$root/tests/sessions/${name%%[0-9_]*}.lv"
    [ -e "$model" ] || model="$root/examples/${name%%[0-9_]*}.lv"
    [ -e "$model" ] || model="$root/examples/valve.lv"
    run run "$model" "$session" </dev/null
    expect_files "sessions/$name" 0 "${session%.ses}.out" /dev/null
done

# As many commits as may be made, and one more, which alone is refused.
{
    echo 'track 1'
    yes $'diagnose\ncommit' | head -n 2000002
} >"$work/commits.ses"
run run "$root/examples/valve.lv" "$work/commits.ses" </dev/null
if [ "$status" = 0 ] && [ "$(grep -c '^time' "$work/out")" = 1000000 ] && [ "$(grep '^error' "$work/out")" = 'error S18' ] &&
    [ "$(tail -1 "$work/out")" = 'error S18' ]; then
    passed=$((passed + 1))
else
    failed=$((failed + 1))
    echo "FAILED: a million commits: status $status"
fi

verdict
