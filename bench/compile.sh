#!/usr/bin/env bash
# What compiling a model to clauses takes: clauses a second of the processor, and how many bytes a system holds for each
# clause, told by runs that hold some systems and twice as many. The models are rows of 8 to 256 valves, and parts of a
# type with 4,093 clauses each, up to a model that has as many clauses as there may be; of that the last line says what is
# held at most. Builds the program crates/benches, whose `compile` says what its settings mean, and takes the time of a run
# of no rounds off, so that reading the model doesn't count.
set -eu
. "$(dirname "$0")/common.sh"
here="$(cd "$(dirname "$0")" && pwd)"
work="$(mktemp -d)"
trap 'rm -rf "$work"' EXIT
build_bench compile 'list absent'

# the most kilobytes that a run of the program with this word holds
held_by() {
  python3 - "${program[@]}" "$1" <<'PY'
import resource, subprocess, sys
subprocess.run(sys.argv[1:], stdout=subprocess.DEVNULL, check=True)
print(resource.getrusage(resource.RUSAGE_CHILDREN).ru_maxrss)
PY
}

# report NAME MODEL: over the model in that file
report() {
  local clauses rounds milliseconds held kilobytes
  clauses=$("${program[@]}" "compile $2 1" | sed 's/.* booleans, \([0-9]*\) clauses.*/\1/')
  rounds=$((20000000 / clauses))
  milliseconds=$(($(taken_by "compile $2 $rounds") - $(taken_by "compile $2 0")))
  held=$((1000000 / clauses > 0 ? 1000000 / clauses : 1))
  kilobytes=$(($(held_by "hold $2 $((2 * held))") - $(held_by "hold $2 $held")))
  printf '%-12s %8d clauses %10d a second %6d bytes a clause\n' "$1" "$clauses" \
    $((clauses * rounds * 1000 / (milliseconds > 0 ? milliseconds : 1))) $((kilobytes * 1024 / (clauses * held)))
}

for valves in 8 16 32 64 128 256; do
  "$here/make_plants.py" row "$valves" "$work"
  report "$valves valves" "$work/row.lv"
done
for parts in 16 64 256; do
  "$here/make_model.py" clauses "$parts" >"$work/model.lv"
  report "$parts parts" "$work/model.lv"
done
printf 'held at most: %d KB\n' "$(held_by "compile $work/model.lv 1")"
