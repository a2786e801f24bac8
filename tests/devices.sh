#!/usr/bin/env bash
# Runs the built program over what real systems do to it: a full disk, a pipe that is closed early, folders and files that
# can't be read in the places of files, a file that shrinks, a session over a named pipe in slow pieces, and streams
# that are closed from the start. Each row looks at the status, what stands on the output, and the line on standard error.
# shellcheck source-path=SCRIPTDIR source=common.sh
. "$(dirname "$(readlink -f "${BASH_SOURCE[0]}")")/common.sh"

model="$root/examples/valve.lv"
session="$root/examples/first.ses"
cd "$work" || exit 1
"$program" run "$model" "$session" >first.out </dev/null
yes states | head -100000 >many.ses

# A full disk, from the first byte on.
for words in "run $model $session" "print $model" 'generate model 3' 'drive 3'; do
    read -ra split <<<"$words"
    timeout 60 "$program" "${split[@]}" >/dev/full 2>err </dev/null
    status=$?
    : >out
    expect "a full disk: ${split[0]}" 6 '' ''
done

# A pipe that is closed after the first line: the program ends by itself, not by a signal, and what was read is a front.
timeout 60 "$program" run "$model" many.ses 2>err </dev/null | head -1 >front
status=${PIPESTATUS[0]}
head -1 front >out
expect 'a pipe that is closed' 6 'time 0 tracked 1' ''

# Folders, and files that may not be read, in the places of files.
mkdir folder
: >locked
chmod 000 locked
run run folder "$session" </dev/null
expect 'a folder as the model' 4 '' 'cannot read model'
run run "$model" folder </dev/null
expect 'a folder as the session' 5 '' 'cannot read session'
if [ "$(id -u)" != 0 ]; then
    run run locked "$session" </dev/null
    expect 'a model that may not be read' 4 '' 'cannot read model'
fi
run run "$work/absent/model.lv" "$session" </dev/null
expect 'a model in no folder' 4 '' 'cannot read model'
run run "$model" "$model/session" </dev/null
expect 'a session below a file' 5 '' 'cannot read session'
run run "$(printf 'n%.0s' {1..300})" "$session" </dev/null
expect 'a model with too long a name' 4 '' 'cannot read model'

# A session over a named pipe, in pieces of one byte: the same replies.
mkfifo pipe
{
    while IFS= read -r -n 1 -d '' byte; do
        printf '%s' "${byte}"
    done <"$session"
} >pipe &
run run "$model" pipe </dev/null
wait
expect_files 'a session over a named pipe' 0 first.out /dev/null

# A pipe whose writer goes away in the middle of a line: the last line is served at the end of what came.
printf 'command v.cmd = open\ndiagnose' >pipe &
run run "$model" pipe </dev/null
wait
expect_files 'a writer that goes away' 0 first.out /dev/null

# A file that shrinks while it is read: what came is served, the last line as far as it came.
cp many.ses shrinks.ses
("$program" run "$model" shrinks.ses >shrunk 2>err </dev/null; echo $? >ended) &
sleep 0.02
: >shrinks.ses
wait
if [ "$(cat ended)" = 0 ] && [ ! -s err ] && ! grep -qvxE '1 cost 0: v=closed|time 0 tracked 1|error S01' shrunk && [ "$(grep -c error shrunk)" -le 1 ]; then
    passed=$((passed + 1))
else
    failed=$((failed + 1))
    echo "FAILED: a file that shrinks: status $(cat ended)"
fi

# Standard streams that are closed from the start.
timeout 60 "$program" run "$model" "$session" >&- 2>err </dev/null
status=$?
: >out
expect 'standard output closed' 6 '' ''
timeout 60 "$program" run "$model" absent.ses >out 2>&- </dev/null
status=$?
: >err
expect 'standard error closed' 6 '' ''

verdict
