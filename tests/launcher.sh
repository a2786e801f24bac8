#!/usr/bin/env bash
# Runs the launcher and first-look in a copy of the repository's top in which the build, the kit and the program are stubs
# that say that they were called: what is refused before anything is built, what is run, and what stands on which stream.
# Needs no built program.
set -u
root="$(dirname "$(dirname "$(readlink -f "${BASH_SOURCE[0]}")")")"
work="$(mktemp -d)" || exit 1
trap 'rm -rf "$work"' EXIT
passed=0
failed=0
top="$work/top"
usage='usage: livingstone run MODEL SESSION, check MODEL CERT, print MODEL, generate KIND N, drive N, lanes MODEL SESSION, plant MODEL SCRIPT'
mkdir -p "$top/shell" "$top/crates/livingstone_cli/out" "$work/kit" "$work/caller"
cp "$root/livingstone" "$root/first-look" "$top"
cp "$root/shell/words.sh" "$top/shell"

# stub FILE: a program of the lines on standard input.
stub() {
    { echo '#!/usr/bin/env bash'; cat; } >"$1"
    chmod +x "$1"
}
stub "$work/program" <<'END'
echo "proved: $*"
cat >/dev/null
exit 5
END
# The state of the program is told by a file; a build makes the program.
stub "$top/build" <<'END'
top="$(dirname "$0")"
[ "${1-}" != --check ] || exit "$(cat "$top/state")"
echo 'build: begun' >&2
[ "$(cat "$top/state")" != 4 ] || [ ! -e "$top/unbuildable" ] || exit 1
cp "$top/../program" "$top/crates/livingstone_cli/out/livingstone_cli"
END
# The kit's run of the program, with the lines that it adds to standard error.
stub "$work/kit/rt" <<'END'
echo "unproved: $*"
echo 'cannot read session' >&2
echo 'checked: 7' >&2
echo 'run=ended status=5' >&2
exit 5
END

# run STATE WORD..: the launcher, or what `called` names, where the program is in that state: 0 current, 3 older, 4 absent.
called=livingstone
path="$work/kit:$PATH"
run() {
    echo "$1" >"$top/state"
    rm -f "$top/crates/livingstone_cli/out/livingstone_cli"
    [ "$1" = 4 ] || cp "$work/program" "$top/crates/livingstone_cli/out/livingstone_cli"
    shift
    (cd "$work/caller" && PATH="$path" "$top/$called" "$@") >"$work/out" 2>"$work/err" </dev/null
    status=$?
}

# expect NAME STATUS OUTPUT PATTERN: how the last run ended, what it wrote, and what its standard error looks like, as a
# pattern of bash over the whole text.
expect() {
    local out err
    out="$(cat "$work/out")"
    err="$(cat "$work/err")"
    # shellcheck disable=SC2053
    if [ "$status" = "$2" ] && [ "$out" = "$3" ] && [[ "$err" == $4 ]]; then
        passed=$((passed + 1))
    else
        failed=$((failed + 1))
        printf 'FAILED: %s: status %s\n%s\n--\n%s\n' "$1" "$status" "$out" "$err"
    fi
}

cp "$root/examples/valve.lv" "$root/examples/first.ses" "$root/examples/valve.cert" "$work/caller"
cp "$work/caller/valve.lv" "$work/caller/-dashed.lv"

# A program that is current is run as it is, whatever the words; it judges them itself.
run 0 run valve.lv first.ses
expect 'a current program' 5 'proved: run valve.lv first.ses' ''
run 0 jump -x
expect 'a current program judges its words' 5 'proved: jump -x' ''

# An older one is run with a line, and not rebuilt.
run 3 run valve.lv first.ses
expect 'an older program' 5 'proved: run valve.lv first.ses' 'livingstone: sources are newer: ./build'

# A build that can't tell the state ends the launcher, and nothing is run.
run 1 run valve.lv first.ses
expect 'a state that is not told' 125 '' "livingstone: whether the program is built can't be told"

# Without a program wrong words are refused before anything is built.
while IFS= read -r line; do
    eval "words=($line)"
    run 4 "${words[@]}"
    expect "refused: $line" 2 '' "$usage"
done <<'END'

jump
run
run valve.lv
run valve.lv first.ses first.ses
run -dashed.lv first.ses
run valve.lv -
run -- valve.lv
-- run valve.lv first.ses
--help
print
print --
print --help
print -dashed.lv
print valve.lv first.ses
check valve.lv
generate model
generate plant 1
generate model 0
generate model 1000001
generate model 18446744073709551617
generate model 1x
generate model ''
generate session -1
drive
drive 0
drive ten
run valve.lv $'\xff'
run a -- -- b
END

# The words that it accepts are those that reach the build.
touch "$top/unbuildable"
while IFS= read -r line; do
    eval "words=($line)"
    run 4 "${words[@]}"
    expect "accepted: $line" 125 '' '*build: begun*there is no proved answer*'
done <<'END'
run valve.lv first.ses
run valve.lv stdin
run absent.lv absent.ses
run -- -dashed.lv first.ses
run valve.lv -- first.ses
run '' ''
check valve.lv valve.cert
print -- -dashed.lv
generate model 1
generate session 0001000000
generate -- model 7
drive 1000000
run model -- --
END
rm "$top/unbuildable"

# Without the kit a sentence says what is missing, before anything is built.
mkdir "$work/tools"
for tool in bash env cat cp dirname grep iconv mktemp readlink rm tail; do
    ln -s "$(command -v "$tool")" "$work/tools"
done
path="$work/tools"
run 4 run valve.lv first.ses
expect 'no kit' 127 '' "livingstone: 'rt' is not on the path.*Rattle kit*"
run 4 run valve.lv
expect 'no kit, and wrong words' 2 '' "$usage"
run 0 run valve.lv first.ses
expect 'no kit, and a program' 5 'proved: run valve.lv first.ses' ''
called=first-look
run 4 run valve.lv first.ses
expect 'no kit for first-look' 127 '' "first-look: 'rt' is not on the path*"
called=livingstone
path="$work/kit:$PATH"

# The unproved answer stands on standard error, between two lines that say so, and before the build; then comes the proved.
run 4 run valve.lv first.ses
expect 'an unproved answer first' 5 'proved: run valve.lv first.ses' \
    $'livingstone: NOT PROVED: *\nfirst-look: this run is not proved*\nunproved: try --data model.lv=*valve.lv --data session.ses=*first.ses -- run model.lv session.ses\n*cannot read session\nlivingstone: NOT PROVED: *status 5*\nbuild: begun'
run 4 generate model 3
expect 'an unproved text first' 5 'proved: generate model 3' $'livingstone: NOT PROVED: *\nunproved: try -- generate model 3\n*\nlivingstone: NOT PROVED: *\nbuild: begun'

# Not where it would take what the proved program is to read, or where there is nothing to read.
for words in 'run valve.lv stdin' 'run stdin first.ses' 'run valve.lv absent.ses' 'print absent.lv' "run valve.lv $work"; do
    read -ra split <<<"$words"
    run 4 "${split[@]}"
    expect "no unproved answer: $words" 5 "proved: $words" 'build: begun'
done

# first-look alone: the program's words, its output, its line and its status.
called=first-look
run 4 check valve.lv valve.cert
expect 'first-look: check' 5 "unproved: try --data model.lv=$(readlink -f "$work/caller/valve.lv") --data answer.cert=$(readlink -f "$work/caller/valve.cert") -- check model.lv answer.cert" $'first-look: this run is not proved*\ncannot read session'
run 4 print -- -dashed.lv
expect 'first-look: print' 5 "unproved: try --data model.lv=$(readlink -f -- "$work/caller/-dashed.lv") -- print model.lv" $'first-look: *\ncannot read session'
run 4 drive 7
expect 'first-look: drive' 5 'unproved: try -- drive 7' $'first-look: *\ncannot read session'
run 4 run valve.lv absent.ses
expect 'first-look: an absent file' 5 "unproved: try --data model.lv=$(readlink -f "$work/caller/valve.lv") -- run model.lv absent-session.ses" $'first-look: *\ncannot read session'
run 4 run valve.lv
expect 'first-look: wrong words' 2 '' "${usage/livingstone/first-look}"
sed -i '/run=ended/d' "$work/kit/rt"
run 4 drive 7
expect 'first-look: no end' 125 'unproved: try -- drive 7' '*the program did not end by itself'

echo "$passed passed, $failed failed"
[ "$passed" -gt 0 ] && [ "$failed" = 0 ]
