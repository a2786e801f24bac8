# shellcheck shell=bash
# What the scripts here share; each of them reads this file first. Where the program can't be built, they end here.
set -u
root="$(dirname "$(dirname "$(readlink -f "${BASH_SOURCE[0]}")")")"
program="$root/crates/livingstone_cli/out/livingstone_cli"
work="$(mktemp -d)" || exit 1
trap 'rm -rf "$work"' EXIT
passed=0
failed=0

# The program is built once, and then called as it lies there.
if ! "$root/build" </dev/null; then
    echo 'the program could not be built, so nothing was tried'
    exit 1
fi

# The program's words, in the folder that this is called in; its input is that of this function. A run that hasn't ended
# after ten minutes is stopped, with status 124.
run() {
    timeout 600 "$program" "$@" >"$work/out" 2>"$work/err"
    status=$?
}

# expect_files NAME STATUS OUTPUT ERROR: how the last run ended, and the files that hold what it was to write.
expect_files() {
    if [ "$status" = "$2" ] && cmp -s "$3" "$work/out" && cmp -s "$4" "$work/err"; then
        passed=$((passed + 1))
    else
        failed=$((failed + 1))
        echo "FAILED: $1: status $status (wanted $2)"
        diff "$3" "$work/out" | head -5
        diff "$4" "$work/err" | head -5
    fi
}

# The lines of a text, each ended by a line feed; an empty text has none.
lines() {
    [ -z "$1" ] || printf '%s\n' "$1"
}

# expect NAME STATUS OUTPUT ERROR: how the last run ended, and what it was to write.
expect() {
    lines "$3" >"$work/wanted-out"
    lines "$4" >"$work/wanted-err"
    expect_files "$1" "$2" "$work/wanted-out" "$work/wanted-err"
}

# Says how many runs passed and failed; fails where one failed, or where there was none.
verdict() {
    echo "$passed passed, $failed failed"
    [ "$passed" -gt 0 ] && [ "$failed" = 0 ]
}
