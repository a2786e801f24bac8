#!/usr/bin/env bash
# Runs the built program as its session comes: over a pseudo-terminal, where each reply is read before the next line is
# sent; over a pipe that stays open; and over a long session, whose memory may not grow. Then the commands that need no
# file.
# shellcheck source-path=SCRIPTDIR source=common.sh
. "$(dirname "$(readlink -f "${BASH_SOURCE[0]}")")/common.sh"

model="$root/examples/valve.lv"

# A conversation: each line is sent only once the reply to the one before was read.
talk() {
    timeout 60 python3 "$root/tests/talk.py" "$program" "$model" "$@" >"$work/out" 2>"$work/err"
    status=$?
}

for way in terminal pipe; do
    talk "$way"
    expect "a conversation over a $way" 0 'answered line by line' ''
done

# `quit` ends the program though more is to come.
{
    echo quit
    sleep 30
} | timeout 10 "$program" run "$model" stdin >"$work/out" 2>"$work/err"
status=${PIPESTATUS[1]}
expect 'a session that ends at its quit' 0 'ok' ''

# A session longer than its limit whose quit ends within it is served; and so are the lines of one that has none.
comment="#$(printf '%4094s' '')"
{
    echo quit
    yes "$comment" | head -c 67108864
} >"$work/quit.ses"
run run "$model" "$work/quit.ses" </dev/null
expect 'a long session that ends before its limit' 0 'ok' ''

{
    echo jump
    yes "$comment" | head -c 67108864
} >"$work/long.ses"
run run "$model" "$work/long.ses" </dev/null
expect 'a long session' 7 'error S01' 'session too long'

# 60 MB of cheap lines in 64 MB of memory and room for the program.
yes 'track 4' | head -c 60000000 >"$work/cheap.ses"
(ulimit -v 65536 && exec "$program" run "$model" "$work/cheap.ses" >"$work/out" 2>"$work/err" </dev/null)
status=$?
if [ "$status" = 0 ] && [ "$(sort -u "$work/out")" = ok ] && [ "$(wc -l <"$work/out")" = 7500000 ]; then
    passed=$((passed + 1))
else
    failed=$((failed + 1))
    echo "FAILED: 60 MB of cheap lines: status $status"
fi

# Texts that are made, and a session that is driven, as an independent reference program makes them.
run generate model 31 </dev/null
expect_files 'a made model' 0 "$root/tests/generated/31.lv" /dev/null

run generate session 031 </dev/null
expect_files 'a made session' 0 "$root/tests/generated/31.ses" /dev/null

for number in 1 2 31; do
    run drive "$number" </dev/null
    expect_files "driven session $number" 0 "$root/tests/generated/$number.out" /dev/null
done

# What a driven session counts is what its made text, run over its made model, gives; and it counts the same again.
"$program" generate model 31 >"$work/made.lv"
"$program" generate session 31 >"$work/made.ses"
"$program" run "$work/made.lv" "$work/made.ses" >"$work/made.out" </dev/null
counted() { sed -n "s/^$1 //p" "$root/tests/generated/31.out"; }
if [ "$(counted replies)" = $((101 + $(grep -c '^command' "$work/made.ses"))) ] &&
    [ $(($(counted settled) + $(counted unsettled))) = 20 ] &&
    [ "$(counted errors)" = "$(grep -c '^error' "$work/made.out")" ] &&
    [ "$(counted replies)" = "$(grep -cE '^(ok|error|settled|unsettled|conflicts|time) ?' "$work/made.out")" ]; then
    passed=$((passed + 1))
else
    failed=$((failed + 1))
    echo 'FAILED: the counts of a driven session'
fi

verdict
