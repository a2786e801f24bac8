#!/usr/bin/env bash
# Makes the engine's WebAssembly module and compares what a session over it in node replies with what the built program writes: the
# valve, the propulsion system, 1,000 lines, certificates, refused models, and memory that is too little. Outside the gate. Where node
# or the kit's clang for WebAssembly is not there, it ends with a line 'skipped'.
# shellcheck source-path=SCRIPTDIR source=common.sh
skip() {
    echo "skipped: $1"
    exit 0
}
command -v node >/dev/null || skip 'node is not there'
command -v rt >/dev/null || skip 'the kit is not there'
"$(dirname "$(rt doc | head -1)")/toolchain/bin/clang" --print-targets 2>/dev/null | grep -q wasm64 || skip 'the kit has no clang for wasm64'
# shellcheck disable=SC1091
. "$(dirname "$(readlink -f "${BASH_SOURCE[0]}")")/common.sh"

"$root/tools/wasm" "$work/livingstone.wasm" || exit 1

same() {
    local name="$1" wanted="$status"
    shift
    cp "$work/out" "$work/wanted-out"
    cp "$work/err" "$work/wanted-err"
    node --no-warnings --experimental-wasm-memory64 "$root/tests/wasm.mjs" "$work/livingstone.wasm" "$@" >"$work/out" 2>"$work/err" </dev/null
    status=$?
    expect_files "$name" "$wanted" "$work/wanted-out" "$work/wanted-err"
}

valve="$root/examples/valve.lv"
for session in "$root/examples/first.ses" "$root"/tests/sessions/valve*.ses; do
    run run "$valve" "$session" </dev/null
    same "$(basename "$session")" run "$valve" "$session"
done
run run "$root/examples/propulsion.lv" "$root/examples/propulsion.ses" </dev/null
same propulsion run "$root/examples/propulsion.lv" "$root/examples/propulsion.ses"

cat "$root"/tests/sessions/valve*.ses "$root/examples/first.ses" | grep -v '^ *quit' >"$work/some"
: >"$work/lines"
while [ "$(wc -l <"$work/lines")" -lt 1000 ]; do cat "$work/some" >>"$work/lines"; done
head -1000 "$work/lines" >"$work/thousand"
run run "$valve" "$work/thousand" </dev/null
same '1,000 lines' run "$valve" "$work/thousand"

printf 'nonsense\n' >"$work/bad.lv"
run run "$work/bad.lv" "$root/examples/first.ses" </dev/null
same 'a refused model' run "$work/bad.lv" "$root/examples/first.ses"

run check "$valve" "$root/examples/valve.cert" </dev/null
same 'a certificate' check "$valve" "$root/examples/valve.cert"
sed '3d' "$root/examples/valve.cert" >"$work/bad.cert"
run check "$valve" "$work/bad.cert" </dev/null
same 'a bad certificate' check "$valve" "$work/bad.cert"

# Memory that is let go is used again, and too little of it is told.
echo 'enough' >"$work/out"
: >"$work/err"
status=0
same 'memory' memory "$valve" "$root/examples/first.ses"

# The page opens its first example in a browser, where there is one.
if command -v chromium >/dev/null && "$root/tools/page" "$work/page.html" "$work/livingstone.wasm" >/dev/null; then
    shown="$(timeout 120 chromium --headless --no-sandbox --disable-gpu --virtual-time-budget=15000 --dump-dom "file://$work/page.html" 2>/dev/null)"
    if grep -q '<span id="verdict" class="">accepted</span>' <<<"$shown" && grep -q '<text [^>]*>closed</text>' <<<"$shown"; then
        passed=$((passed + 1))
    else
        failed=$((failed + 1))
        echo 'FAILED: the page in Chromium'
    fi
else
    echo 'the page was not opened: there is no chromium, or no page'
fi

verdict
