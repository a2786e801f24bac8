#!/usr/bin/env bash
# What `print` takes for each byte of a model, in nanoseconds of the processor: the text is read, checked, and written in
# its canonical form. The texts are those of make_model.py: growing series of valves with laws, growing numbers of types
# with 16 modes and 64 moves, in both versions of the language, laws of nearly 4,000 bytes, such laws in a type that 256 parts share, growing numbers of
# domains, of a type's variables, of types and of prices, and the longest text that there may be. Behind each stands the time a byte as a multiple of the first of its kind, so that growth beyond the
# text's own can be seen in one run.
# Builds the program first, and takes the time that it needs for a text of four lines off.
set -eu
. "$(dirname "$0")/common.sh"
maker="$(cd "$(dirname "$0")" && pwd)/make_model.py"
work="$(mktemp -d)"
trap 'rm -rf "$work"' EXIT
build livingstone_cli print absent || true

# the milliseconds of the processor that so many runs over a text take
taken_by_runs() {
  local TIMEFORMAT='%3U %3S' user system i
  read -r user system < <({ time for ((i = 0; i < $2; i++)); do "$program" print "$1" >"$work/printed"; done; } 2>&1)
  echo $((10#${user/./} + 10#${system/./}))
}

# report KIND SIZE RUNS: over the text of that kind and size
first_kind=''
report() {
  local bytes picoseconds
  "$maker" "$1" "$2" >"$work/model.lv"
  bytes=$(wc -c <"$work/model.lv")
  picoseconds=$((($(taken_by_runs "$work/model.lv" "$3") - none * $3 / none_runs) * 1000000000 / ($3 * bytes)))
  picoseconds=$((picoseconds > 0 ? picoseconds : 0))
  if [ "$1" != "$first_kind" ]; then
    first_kind=$1
    first=$((picoseconds > 0 ? picoseconds : 1))
  fi
  local times=$((picoseconds * 100 / first))
  printf '%-9s %8d %9d bytes %6d.%03d ns a byte %4d.%02d times the first\n' "$1" "$2" "$bytes" \
    $((picoseconds / 1000)) $((picoseconds % 1000)) $((times / 100)) $((times % 100))
}

printf '%s\n' 'type t' 'mode m' 'end' 'part p t m' >"$work/small.lv"
none_runs=100
none=$(taken_by_runs "$work/small.lv" "$none_runs")

report series 1000 100
report series 10000 10
report series 100000 1
report types 1000 100
report types 10000 10
report types 100000 1
report short 1000 100
report short 10000 10
report short 100000 1
report laws 10 100
report laws 100 10
report laws 1000 1
report shared 10 10
report shared 100 1
report shared 1000 1
report domains 10000 10
report domains 100000 1
report variables 10000 10
report variables 100000 1
report names 10000 10
report names 100000 1
report prices 10000 10
report prices 61425 1
report bytes 4194304 1
