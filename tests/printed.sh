#!/usr/bin/env bash
# Asks the built program for a certificate behind each diagnosis and recovery of the sessions of random/, searches/,
# recoveries/ and sessions/, has it check each one that it wrote, and looks that nothing else that it writes has changed.
# shellcheck source-path=SCRIPTDIR source=common.sh
. "$(dirname "$(readlink -f "${BASH_SOURCE[0]}")")/common.sh"

# The worked example: what it writes for a session is what the checker accepts.
cd "$work" || exit 1
printf 'command v.cmd = open\nobserve meter v.out = zero\ndiagnose\ncertificate\n' >worked.ses
run run "$root/examples/valve.lv" worked.ses </dev/null
tail -n +5 out >worked.cert
run check "$root/examples/valve.lv" worked.cert </dev/null
expect 'the certificate of the worked example' 0 valid ''

python3 "$root/tests/printed.py" "$program" "$root"/tests/{random,searches,recoveries,sessions}
tables=$?

verdict && [ "$tables" = 0 ]
