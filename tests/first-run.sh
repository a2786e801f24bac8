#!/usr/bin/env bash
# Runs the worked example over real files, by the program and by its launcher, from the folders that a caller may be in.
# shellcheck source-path=SCRIPTDIR source=common.sh
. "$(dirname "$(readlink -f "${BASH_SOURCE[0]}")")/common.sh"

model="$root/examples/valve.lv"
session="$root/examples/first.ses"
diagnosis='ok
settled 3
1 cost 0 from 1: v closed>open #1
2 cost 3 from 1: v closed>stuck_closed #3
3 cost 8 from 1: v closed>stuck_open #6'

cd "$root" || exit 1
run run examples/valve.lv examples/first.ses </dev/null
expect 'the first run' 0 "$diagnosis" ''

cd "$work" || exit 1
run run "$model" "$session" </dev/null
expect 'from another folder' 0 "$diagnosis" ''

run run "$model" stdin <"$session"
expect 'a session on standard input' 0 "$diagnosis" ''

run run stdin "$session" <"$model"
expect 'a model on standard input' 0 "$diagnosis" ''

# From here on `run` calls the launcher.
program="$root/livingstone"
run run "$model" "$session" </dev/null
expect 'by the launcher' 0 "$diagnosis" ''

ln -s "$root/livingstone" by-link
program=./by-link
run run "$model" "$session" </dev/null
expect 'by a symbolic link to the launcher' 0 "$diagnosis" ''

run run "$model" absent.ses </dev/null
expect "the program's status and line through the launcher" 5 '' 'cannot read session'

verdict
