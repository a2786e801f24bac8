#!/usr/bin/env bash
# Runs the worked plants of examples/ and each example that stands in the documents over the built program; what they are
# to write was made by an independent reference program and read. Then serves sessions over a socket.
# shellcheck source-path=SCRIPTDIR source=common.sh
. "$(dirname "$(readlink -f "${BASH_SOURCE[0]}")")/common.sh"

python3 "$root/tests/examples.py" "$program" "$@"
status=$?
python3 "$root/tests/service.py" "$program" || status=1
exit "$status"
