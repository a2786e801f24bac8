#!/usr/bin/env bash
# Runs the tests of the Python package over the built program, and the sessions of examples/netlists, whose replies an
# independent reference program gave. Where the library is built, its sessions too.
# shellcheck source-path=SCRIPTDIR source=common.sh
. "$(dirname "$(readlink -f "${BASH_SOURCE[0]}")")/common.sh"

export LIVINGSTONE="$program"
[ -f "$root/library/out/liblivingstone.so" ] || echo 'the library is not built (library/build): sessions over it are not tried'
export PYTHONDONTWRITEBYTECODE=1

if ! python3 -c 'import sys; sys.exit(sys.version_info < (3, 9))'; then
    echo 'Python 3.9 or later is not there, so nothing was tried'
    exit 1
fi

# The tests count one by one; a run of no test, or one that didn't come to its end, is a failure.
(cd "$root/python" && timeout 300 python3 -m unittest discover --start-directory tests --top-level-directory .) \
    >"$work/tests" 2>&1 </dev/null
status=$?
ran="$(sed -n 's/^Ran \([0-9]*\) tests\{0,1\} in .*/\1/p' "$work/tests")"
if [ "$status" = 0 ] && [ "${ran:-0}" -gt 0 ]; then
    passed=$((passed + ran))
else
    failed=$((failed + 1))
    echo "FAILED: the tests of python/: status $status"
    tail -40 "$work/tests"
fi

for name in c17 adder multiplier; do
    run run "$root/examples/netlists/$name.lv" "$root/examples/netlists/$name.ses" </dev/null
    expect_files "examples/netlists/$name" 0 "$root/examples/netlists/$name.out" /dev/null
done

verdict
