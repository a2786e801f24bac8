#!/usr/bin/env bash
# What a probe takes, in milliseconds of the processor, over plants of 8 to 256 valves as those of diagnose.sh, after a
# diagnosis that lists up to 1, 4 and 64 candidates. The time of the same session without the probe is taken off, and
# stands beside; then the number of candidates listed, of observables, the observable that is best looked at, and the
# largest number that one of its values has. Behind that what a test of an observable takes from 2, 8 and 64 tracked states,
# which an observable of 32 values tells apart or can't, among 8 to 256 switches that show nothing: the time of the session
# without it, its own, the numbers of conflicts and of trials, and the reply. Builds the program first. Sizes may be given.
set -eu
. "$(dirname "$0")/common.sh"
prepare "$@"

printf '%-10s %6s %4s %12s %10s %7s %12s %-10s %7s\n' plant valves k 'diagnosis ms' 'probe ms' listed observables best largest
for kind in row opened fan twofaults ladder branch branches; do
  for n in $sizes; do
    "$here/make_plants.py" "$kind" "$n" "$work"
    for k in 1 4 64; do
      { cat "$work/$kind.$k.ses"; echo probe; } >"$work/probe.ses"
      before=$(taken_by run "$work/$kind.lv" "$work/$kind.$k.ses")
      whole=$(taken_by run "$work/$kind.lv" "$work/probe.ses")
      "$program" run "$work/$kind.lv" "$work/probe.ses" | sed -n '/^probe /,$p' >"$work/out"
      best=$(sed -n 's/^best //p' "$work/out")
      listed=$(sed -n 's/^probe //p' "$work/out")
      largest=$(awk -v best="$best:" '$1 == best { gsub(",", ""); for (i = 3; i <= NF; i += 2) if ($i > most) most = $i; print most + 0 }' "$work/out")
      printf '%-10s %6d %4d %12d %10d %7s %12d %-10s %7s\n' "$kind" "$n" "$k" "$before" $((whole - before)) "${listed:--}" \
        "$(grep -c ': ' "$work/out")" "${best:--}" "${largest:--}"
    done
  done
done

printf '\n%-8s %8s %7s %10s %8s %9s %7s  %s\n' plant switches tracked 'before ms' 'test ms' conflicts trials reply
for n in $sizes; do
  [ "$n" -le 252 ] || n=252 # a plant has 256 parts at most, and three of them are no switches
  python3 "$here/make_tests.py" "$n" "$work"
  for k in 2 8 64; do
    before=$(taken_by run "$work/dials.lv" "$work/dials.$k.before")
    whole=$(taken_by run "$work/dials.lv" "$work/dials.$k.ses")
    "$program" run "$work/dials.lv" "$work/dials.$k.ses" >"$work/out"
    tracked=$(awk '/^time/ { print $4 }' "$work/out")
    reply=$(sed -n '/^test\|^no test\|^unsettled trials/p' "$work/out" | cut -c1-20)
    read -r kept trials <<<"$(awk '/^conflicts/ { print $2, $4 }' "$work/out")"
    printf '%-8s %8d %7d %10d %8d %9d %7d  %s\n' dials "$n" "$tracked" "$before" $((whole - before)) "$kept" "$trials" "$reply"
  done
done
