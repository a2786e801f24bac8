#!/usr/bin/env bash
# Runs the built program over plants/NNN.script, random scripts of a plant in the loop over the model recoveries/NNN.lv, and
# compares what it writes with NNN.out, which an independent reference program, which is not part of this repository, wrote;
# looks that a session that is told what a plant shows replies as the plant's own session did. With the word `million` it has a
# plant make a million steps too, which takes a minute or two and is no part of the gate.
# shellcheck source-path=SCRIPTDIR source=common.sh
. "$(dirname "$(readlink -f "${BASH_SOURCE[0]}")")/common.sh"

for script in "$root"/tests/plants/*.script; do
    name="$(basename "$script" .script)"
    run plant "$root/tests/recoveries/$name.lv" "$script" </dev/null
    expect_files "plants/$name" 0 "${script%.script}.out" /dev/null
done

# A ladder of valves that fail one after the other.
python3 "$root/bench/make_plants.py" ladder 8 "$work"
python3 "$root/bench/make_plant.py" script 8 60 >"$work/ladder.script"
run plant "$work/ladder.lv" "$work/ladder.script" </dev/null
grep -v '^ok$\|^plant \|^held \|^goals ' "$work/out" >"$work/ladder.out"
python3 "$root/bench/make_plant.py" session "$work/ladder.script" "$work/out" >"$work/ladder.ses"
timeout 600 "$program" run "$work/ladder.lv" "$work/ladder.ses" </dev/null >"$work/told" 2>"$work/err"
status=$?
grep -v '^ok$' "$work/told" >"$work/out"
expect_files 'a session that is told what a plant shows' 0 "$work/ladder.out" /dev/null

# The last of a million steps, and none behind it, of a plant that has nothing to do.
if [ "${1-}" = million ]; then
    printf '%s\n' 'type rock' 'mode lies' 'end' 'part r rock lies' >"$work/rock.lv"
    {
        yes step | head -1000000
        printf '%s\n' step states
    } >"$work/million.script"
    run plant "$work/rock.lv" "$work/million.script" </dev/null
    tail -9 "$work/out" >"$work/last"
    mv "$work/last" "$work/out"
    expect 'a million steps' 0 "$(
        printf '%s\n' 'plant time 1000000: r=lies' 'settled 1' '1 cost 0 from 1: -' 'time 1000000 tracked 1' 'held yes' 'goals none' \
            'error P04' 'time 1000000 tracked 1' '1 cost 0: r=lies'
    )" ''
fi

verdict
