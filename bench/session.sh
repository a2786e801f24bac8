#!/usr/bin/env bash
# What a cheap line of a session takes, in microseconds of the processor, over the valve of examples/: sessions of
# 200,000 lines of one kind, with the time of an empty session taken off. Builds the program first.
set -eu
. "$(dirname "$0")/common.sh"
root="$(cd "$(dirname "$0")/.." && pwd)"
lines=200000
work="$(mktemp -d)"
trap 'rm -rf "$work"' EXIT
build livingstone_cli run absent absent || true
model="$root/examples/valve.lv"
: >"$work/none.ses"
none=$(taken_by run "$model" "$work/none.ses")

# report LINE [OTHER]: a session of these lines in turn
report() {
  yes "$(printf '%s\n' "$@")" | head -n "$lines" >"$work/lines.ses" || true
  local taken=$((($(taken_by run "$model" "$work/lines.ses") - none) * 1000000 / lines))
  printf '%-40s %6d.%03d us a line\n' "$1" $((taken / 1000)) $((taken % 1000))
}

report 'track 3'
report 'command v.cmd = open' 'release v.cmd'
report 'observe o v.out = zero' 'retract o'
report 'states'
report 'jump'
