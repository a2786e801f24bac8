#!/usr/bin/env bash
# What a step of a plant in the loop takes, over a ladder of 32 valves, 200 steps with a fault before each tenth, and a
# recovery asked for and applied behind it: the milliseconds of the processor for a step, and of these those of the plant
# and of the session, which are those of a session alone that is told and asked the same; that its replies are those of the
# plant's session is looked at too. Then the KiB of memory that 100, 1,000 and 10,000 such steps take at most. Builds the
# program first. Numbers of valves, each even, may be given.
set -eu
. "$(dirname "$0")/common.sh"
prepare
sizes="${*:-32}"
steps=200
: >"$work/none"

printf '%6s %6s %10s %9s %11s\n' valves steps 'step ms' 'plant ms' 'session ms'
for n in $sizes; do
  python3 "$here/make_plants.py" ladder "$n" "$work"
  model="$work/ladder.lv"
  python3 "$here/make_plant.py" script "$n" "$steps" >"$work/row.script"
  "$program" plant "$model" "$work/row.script" >"$work/out"
  python3 "$here/make_plant.py" session "$work/row.script" "$work/out" >"$work/row.ses"
  "$program" run "$model" "$work/row.ses" >"$work/told"
  cmp <(grep -v '^ok$\|^plant \|^held \|^goals ' "$work/out") <(grep -v '^ok$' "$work/told")
  none=$(taken_by run "$model" "$work/none")
  whole=$(($(taken_by plant "$model" "$work/row.script") - none))
  session=$(($(taken_by run "$model" "$work/row.ses") - none))
  awk -v n="$n" -v steps="$steps" -v whole="$whole" -v session="$session" \
    'BEGIN { printf "%6d %6d %10.2f %9.2f %11.2f\n", n, steps, whole / steps, (whole - session) / steps, session / steps }'
done

if [ -x /usr/bin/time ]; then
  printf '\n%6s %6s %6s\n' valves steps KiB
  for steps in 100 1000 10000; do
    python3 "$here/make_plant.py" script "$n" "$steps" >"$work/long.script"
    kib=$(/usr/bin/time -f %M "$program" plant "$model" "$work/long.script" 2>&1 >/dev/null | tail -1)
    printf '%6d %6d %6s\n' "$n" "$steps" "$kib"
  done
fi
