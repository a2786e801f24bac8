#!/usr/bin/env bash
# What windows take, in milliseconds of the processor: over rows of 2 to 32 valves the session that `generate` makes, of 20
# rounds, with a window of 1, 2, 3 or 4 steps, as many as there are, asked for after each commit; and in its place a
# diagnosis. With 1, 4 and 64 candidates. Short sessions are run as often as fills a third of a second. The time of the
# session without them is taken off, and stands beside; then the trials and the conflicts of all of them, the microseconds
# for each trial, and how many times those of the diagnosis that is: a window of W steps has W times as many choices, and
# is to take no more than 3 W times as long. A row that does is marked, and the status is then 1. Builds the program
# first. Sizes may be given.
set -eu
. "$(dirname "$0")/common.sh"
prepare "$@"
[ $# -gt 0 ] || sizes="2 4 8 16 32"
slow=0

# asking K QUERY [MORE]: the generated session for K candidates, with the query after each commit, and this line behind it. A
# window of more steps than there are is as long as there may be.
asking() {
  awk -v k="$1" -v query="$2" -v more="${3-}" '
    NR == 1 { print "track " k }
    { print }
    $1 == "commit" {
      split(query, words, " ")
      made++
      if (words[1] == "window" && words[2] > made + 1) words[2] = made + 1
      if (query != "") print words[1], words[2]
      if (more != "") print more
    }' "$work/generated.ses"
}

# taken_by_session SESSION: the microseconds of the processor, of three measurements the middle one
taken_by_session() {
  local once times
  once=$(taken_by run "$work/row.lv" "$1")
  times=$((once < 330 ? 330 / (once + 1) + 1 : 1))
  for _ in 1 2 3; do taken_by_runs "$times" "$1"; done | sort -n | sed -n 2p
}

# taken_by_runs TIMES SESSION: the microseconds of the processor of one run, over so many
taken_by_runs() {
  local TIMEFORMAT=%3U taken
  taken=$({ time for _ in $(seq "$1"); do "$program" run "$work/row.lv" "$2" >/dev/null; done; } 2>&1)
  echo $((10#${taken/./} * 1000 / $1))
}

printf '%6s %4s %-10s %10s %10s %8s %9s %10s %7s\n' valves k query 'before ms' 'query ms' trials conflicts 'us a trial' times
for n in $sizes; do
  number=$(((n + 29) % 31))
  [ "$number" -gt 0 ] || number=31
  "$program" generate model "$number" >"$work/row.lv"
  "$program" generate session "$number" >"$work/generated.ses"
  for k in 1 4 64; do
    asking "$k" '' >"$work/none.ses"
    before=$(taken_by_session "$work/none.ses")
    each=0
    for query in diagnose 'window 1' 'window 2' 'window 3' 'window 4'; do
      asking "$k" "$query" >"$work/asked.ses"
      took=$(($(taken_by_session "$work/asked.ses") - before))
      # The conflicts of the query alone: those that the session asks for itself come first in each round.
      asking "$k" "$query" 'conflicts' >"$work/counted.ses"
      read -r kept trials <<<"$("$program" run "$work/row.lv" "$work/counted.ses" |
        awk '/^conflicts/ { if (seen) { kept += $2; trials += $4 } seen = 0 } /^time/ { seen = 1 } END { print kept + 0, trials + 0 }')"
      steps=${query#window }
      awk -v n="$n" -v k="$k" -v query="$query" -v before="$before" -v took="$took" -v trials="$trials" -v kept="$kept" \
        -v steps="${steps/diagnose/0}" -v of_one="$each" 'BEGIN {
          each = trials > 0 ? took / trials : 0
          times = of_one > 0 ? each / of_one : 0
          # a time too short to be told from another says nothing
          slow = steps > 0 && took >= 20000 && of_one > 0 && times > 3 * steps
          ratio = times > 0 ? sprintf("%.2f", times) : "-"
          printf("%6d %4d %-10s %10.1f %10.1f %8d %9d %10.1f %7s%s\n", n, k, query, before / 1000, took / 1000, trials, kept, each, ratio, slow ? " SLOW" : "")
          print each > "'"$work"'/each"
          exit slow
        }' || slow=1
      [ "$query" != diagnose ] || each=$(cat "$work/each")
    done
  done
done
exit "$slow"
