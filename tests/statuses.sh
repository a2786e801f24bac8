#!/usr/bin/env bash
# Runs the built program so that it ends with each of its statuses, and compares its line on standard error.
# shellcheck source-path=SCRIPTDIR source=common.sh
. "$(dirname "$(readlink -f "${BASH_SOURCE[0]}")")/common.sh"

model="$root/examples/valve.lv"
session="$root/examples/first.ses"
usage='usage: livingstone run MODEL SESSION, check MODEL CERT, print MODEL, generate KIND N, drive N, lanes MODEL SESSION, plant MODEL SCRIPT'
cd "$work" || exit 1
: >empty
echo 'no model' >refused.lv

# 0: done.
run run "$model" empty </dev/null
expect 'an empty session' 0 '' ''

cp "$model" ./-dashed.lv
for words in "print $model" "print -- $model" "print -- -dashed.lv"; do
    read -ra split <<<"$words"
    run "${split[@]}" </dev/null
    expect_files "$words" 0 "$root/tests/prints/valve.out" empty
done

run print stdin <"$model"
expect_files 'a model on standard input' 0 "$root/tests/prints/valve.out" empty

run run -- -dashed.lv empty </dev/null
expect 'a model whose name begins with -' 0 '' ''

# 2: the words are refused.
run </dev/null
expect 'no words' 2 '' "$usage"

run run "$model" </dev/null
expect 'too few words' 2 '' "$usage"

run run "$model" "$session" "$session" </dev/null
expect 'too many words' 2 '' "$usage"

run walk "$model" "$session" </dev/null
expect 'a first word that names nothing' 2 '' "$usage"

run run -v "$session" </dev/null
expect 'a word that begins with -' 2 '' "$usage"

for words in print 'print a b' 'print -dashed.lv' 'print -' 'print --' 'print --help' '--help' 'help' '-- print a' 'run -dashed.lv empty' 'run --' 'run a -- -- b'; do
    read -ra split <<<"$words"
    run "${split[@]}" </dev/null
    expect "the words $words" 2 '' "$usage"
done

run run "$model" $'\xff' </dev/null
expect 'a word that is no UTF-8' 2 '' "$usage"

# 3: the model is refused.
run run refused.lv "$session" </dev/null
expect 'a text that is no model' 3 '' 'model 1 M04'

run run refused.lv absent.ses </dev/null
expect 'a text that is no model, whose session is not opened' 3 '' 'model 1 M04'

run print refused.lv </dev/null
expect 'a text that is no model, to be printed' 3 '' 'model 1 M04'

# 4: the model is not read.
run run absent.lv "$session" </dev/null
expect 'an absent model' 4 '' 'cannot read model'

run print absent </dev/null
expect 'an absent model, to be printed' 4 '' 'cannot read model'

run run / "$session" </dev/null
expect 'a folder as model' 4 '' 'cannot read model'

# 5: the session is not read.
run run "$model" absent.ses </dev/null
expect 'an absent session' 5 '' 'cannot read session'

run run "$model" / </dev/null
expect 'a folder as session' 5 '' 'cannot read session'

run run stdin stdin <"$model"
expect 'standard input twice' 5 '' 'cannot read session'

# 6: what was to be written was not.
: >out
"$program" run "$model" "$session" >/dev/full 2>err </dev/null
status=$?
expect 'a full device as output' 6 '' ''

: >err
"$program" run "$model" absent.ses >out 2>/dev/full </dev/null
status=$?
expect 'a full device as standard error' 6 '' ''

# 7: the session is longer than its limit of 67,108,864 bytes. One of that length is served: comments of 4,096
# bytes with their line feeds.
comment="#$(printf '%4094s' '')"
yes "$comment" | head -c 67108864 >long.ses
run run "$model" long.ses </dev/null
expect 'a session of 67108864 bytes' 0 '' ''

echo >>long.ses
run run "$model" long.ses </dev/null
expect 'a session of 67108865 bytes' 7 '' 'session too long'

# 8: memory runs out.
run_in_little_memory() {
    (ulimit -v 32768 && exec "$program" "$@" >"$work/out" 2>"$work/err")
    status=$?
}
seq 230000 | sed 's/.*/domain d& a/' >large.lv
run_in_little_memory print large.lv </dev/null
expect 'a model that is larger than the memory' 8 '' 'out of memory'

verdict
