#!/usr/bin/env bash
# What certificates take, in milliseconds of the processor: to find an answer, to write its certificate too, to read that, and
# to check it, reading included, with the nanoseconds of judging for each number in it; its size, its lines, and the most
# memory that the check holds. What reading takes is told by a check of the text without its last line, which is out of form
# there. Over diagnoses of rows of 8 to 64 valves, of which the last is commanded to open and lets nothing out; over
# recoveries of such rows from up to 64 tracked states; over a fan of 64 valves with two faults and 64 candidates listed; and
# over one large recovery, of a row of 136 valves with 64 goals. Builds the program first. Sizes of rows may be given, and
# then there is no large one.
set -eu
. "$(dirname "$0")/common.sh"
prepare "$@"
[ $# -gt 0 ] || sizes="8 16 32 64"

# the most kilobytes that a check of this certificate over the model holds, which is to be valid
held_by() {
  if ! "$program" check "$1" "$2" | grep -qx valid; then
    echo 'not valid' >&2
    exit 1
  fi
  # A small process measures, since what it begins has at least its own peak.
  python3 -S - "$program" check "$1" "$2" <<'PY'
import os, sys
child = os.fork()
if child == 0:
    os.dup2(os.open(os.devnull, os.O_WRONLY), 1)
    os.execv(sys.argv[1], sys.argv[1:])
print(os.wait4(child, 0)[2].ru_maxrss)
PY
}

# report NAME MODEL SESSION: of a session whose last question is settled
report() {
  local found written read checked held each=-
  found=$(taken_by run "$2" "$3")
  { cat "$3" && echo certificate; } >"$work/asking.ses"
  written=$(taken_by run "$2" "$work/asking.ses")
  "$program" run "$2" "$work/asking.ses" | sed -n '/^certificate /,$p' >"$work/cert"
  head -n -1 "$work/cert" >"$work/cut"
  read=$(taken_by check "$2" "$work/cut")
  checked=$(taken_by check "$2" "$work/cert")
  # a time too short to be told from another says nothing
  [ $((checked - read)) -lt 50 ] || each=$(((checked - read) * 1000000 / $(wc -w <"$work/cert")))
  held=$(held_by "$2" "$work/cert")
  printf '%-34s %9d %9d %9d %9d %6s %10d %8d %8d\n' "$1" "$found" $((written - found)) "$read" "$checked" "$each" \
    "$(wc -c <"$work/cert")" "$(wc -l <"$work/cert")" "$held"
}

# recovery NAME KIND N STATES GOALS: of a row
recovery() {
  "$here/make_recoveries.py" "$2" "$3" "$work" "$5"
  grep -v '^conflicts' "$work/$2.$4.ses" >"$work/recovery.ses"
  report "$1" "$work/$2.lv" "$work/recovery.ses"
}

printf '%-34s %9s %9s %9s %9s %6s %10s %8s %8s\n' certificate 'find ms' 'write ms' 'read ms' 'check ms' ns bytes lines 'check KB'
for n in $sizes; do
  "$here/make_plants.py" row "$n" "$work"
  grep -v '^conflicts' "$work/row.4.ses" >"$work/row.ses"
  report "diagnosis, row of $n" "$work/row.lv" "$work/row.ses"
done
for n in $sizes; do
  for kind in equal none; do
    for states in 1 64; do
      recovery "recovery, row of $n, track $states, $kind" "$kind" "$n" "$states" 1
    done
  done
done
"$here/make_plants.py" twofaults 64 "$work"
grep -v '^conflicts' "$work/twofaults.64.ses" >"$work/large.ses"
report 'diagnosis, fan of 64, two faults' "$work/twofaults.lv" "$work/large.ses"
[ $# -gt 0 ] || recovery 'recovery, row of 136, 64 goals' equal 136 64 64
