#!/usr/bin/env bash
# What a recovery takes, in milliseconds of the processor, over rows of 8 to 256 valves with the goal at the far end, from
# 1, 8 and 64 tracked states: where opening each valve costs the same, where it doesn't, and where there is no recovery.
# The time of the same session without the recovery is taken off, and stands beside; then the reply, and the number of
# conflicts and of trials. Builds the program first. Sizes may be given.
set -eu
. "$(dirname "$0")/common.sh"
prepare "$@"

printf '%-8s %6s %7s %10s %11s %9s %7s  %s\n' prices valves tracked 'before ms' 'recover ms' conflicts trials reply
for kind in equal unequal none; do
  for n in $sizes; do
    python3 "$here/make_recoveries.py" "$kind" "$n" "$work"
    for k in 1 8 64; do
      before=$(taken_by run "$work/$kind.lv" "$work/$kind.$k.before")
      whole=$(taken_by run "$work/$kind.lv" "$work/$kind.$k.ses")
      "$program" run "$work/$kind.lv" "$work/$kind.$k.ses" >"$work/out"
      tracked=$(awk '/^time/ { print $4 }' "$work/out")
      reply=$(sed -n '/^recovery\|^no recovery\|^unsettled trials/p' "$work/out" | cut -c1-20)
      read -r kept trials <<<"$(awk '/^conflicts/ { print $2, $4 }' "$work/out")"
      printf '%-8s %6d %7d %10d %11d %9d %7d  %s\n' "$kind" "$n" "$tracked" "$before" $((whole - before)) "$kept" "$trials" "$reply"
    done
  done
done
