#!/usr/bin/env bash
# Builds the library for C and a program over it, tests/embedding.c, and compares what that writes with what the built program
# writes: single sessions, sessions in turns over one model, refused models, certificates, 1,000 lines in one session, and memory
# that is too little. Where valgrind is there, the same runs again under it: no byte is lost, and none is used that shouldn't be.
# Then the C program of docs/EMBEDDING.md, as it is printed there.
# shellcheck source-path=SCRIPTDIR source=common.sh
. "$(dirname "$(readlink -f "${BASH_SOURCE[0]}")")/common.sh"

library="$root/library/out"
"$root/library/build" --left "$library" >"$work/build" 2>&1 </dev/null
case $? in
0) ;;
3)
    echo 'the gate left no libraries here, since it proved nothing anew (library/build proves them): the library was not tried'
    exit 0
    ;;
*)
    tail -20 "$work/build"
    echo 'FAILED: the library could not be built'
    exit 1
    ;;
esac
compile() {
    "${CC:-cc}" -std=c11 -O1 -g -Wall -Wextra -Werror -I"$root/library/include" "$1" "$library/liblivingstone.a" -o "$2"
}
compile "$root/tests/embedding.c" "$work/embedding" || exit 1

# What the header names is all that the library shows.
shown="$(nm --defined-only --extern-only "$library/liblivingstone.a" | sed -n 's/.* T //p' | sort | tr '\n' ' ')"
named="$(grep -o 'livingstone_[a-z_]*(' "$root/library/include/livingstone.h" | tr -d '(' | sort -u | tr '\n' ' ')"
if [ "$shown" = "$named" ]; then
    passed=$((passed + 1))
else
    failed=$((failed + 1))
    echo "FAILED: the library shows $shown, and the header names $named"
fi

# same NAME WORDS..: the program over the library ends and writes as the built program did in the last run.
before=()
same() {
    local name="$1" wanted="$status"
    shift
    cp "$work/out" "$work/wanted-out"
    cp "$work/err" "$work/wanted-err"
    timeout 600 "${before[@]}" "$work/embedding" "$@" >"$work/out" 2>"$work/err" </dev/null
    status=$?
    expect_files "$name" "$wanted" "$work/wanted-out" "$work/wanted-err"
}

# 1,000 lines: those of the valve's sessions, again and again, without the line that ends one.
cat "$root"/tests/sessions/valve*.ses "$root/examples/first.ses" | grep -v '^ *quit' >"$work/some"
: >"$work/lines"
while [ "$(wc -l <"$work/lines")" -lt 1000 ]; do cat "$work/some" >>"$work/lines"; done
head -1000 "$work/lines" >"$work/thousand"

try_all() {
    local one="$root/examples/valve.lv" session bad
    for session in "$root/examples/first.ses" "$root"/tests/sessions/valve0*.ses; do
        run run "$one" "$session" </dev/null
        same "$1 $(basename "$session")" run "$one" "$session"
    done
    run run "$root/examples/propulsion.lv" "$root/examples/propulsion.ses" </dev/null
    same "$1 propulsion" run "$root/examples/propulsion.lv" "$root/examples/propulsion.ses"

    # Sessions in turns over one model reply as each does alone.
    : >"$work/all"
    for session in "$root/examples/first.ses" "$root"/tests/sessions/valve0*.ses; do
        run run "$one" "$session" </dev/null
        cat "$work/out" >>"$work/all"
    done
    cp "$work/all" "$work/out"
    same "$1 in turns" run "$one" "$root/examples/first.ses" "$root"/tests/sessions/valve0*.ses

    for bad in 'livingstone 9' 'nonsense' ''; do
        printf '%s\n' "$bad" >"$work/bad.lv"
        run run "$work/bad.lv" "$root/examples/first.ses" </dev/null
        same "$1 refused model '$bad'" run "$work/bad.lv" "$root/examples/first.ses"
    done
    : >"$work/bad.lv"
    run run "$work/bad.lv" "$root/examples/first.ses" </dev/null
    same "$1 empty model" run "$work/bad.lv" "$root/examples/first.ses"

    run check "$one" "$root/examples/valve.cert" </dev/null
    same "$1 certificate" check "$one" "$root/examples/valve.cert"
    sed '3d' "$root/examples/valve.cert" >"$work/bad.cert"
    run check "$one" "$work/bad.cert" </dev/null
    same "$1 bad certificate" check "$one" "$work/bad.cert"

    run run "$one" "$work/thousand" </dev/null
    same "$1 1,000 lines" run "$one" "$work/thousand"

    echo enough >"$work/out"
    : >"$work/err"
    status=0
    same "$1 scarce memory" scarce "$one" "$root/examples/first.ses"
}

try_all library
if command -v valgrind >/dev/null; then
    before=(valgrind --quiet --error-exitcode=97 --leak-check=full --show-leak-kinds=all --errors-for-leak-kinds=all)
    try_all valgrind
else
    echo 'valgrind is not there: nothing was run under it'
fi

# The C program of the document, and what it is said to write.
sed -n '/^```c$/,/^```$/p' "$root/docs/EMBEDDING.md" | sed '/^```/d' >"$work/printed.c"
sed -n '/^```text$/,/^```$/p' "$root/docs/EMBEDDING.md" | sed '/^```/d' >"$work/wanted-out"
if compile "$work/printed.c" "$work/printed"; then
    (cd "$root" && "$work/printed") >"$work/out" 2>"$work/err" </dev/null
    status=$?
    expect_files 'the C program of docs/EMBEDDING.md' 0 "$work/wanted-out" /dev/null
else
    failed=$((failed + 1))
fi

verdict
