#!/usr/bin/env bash
# The limits of the languages from both sides, over the built program, with the time and memory that each takes. It is no part of
# the gate.
# shellcheck source-path=SCRIPTDIR source=common.sh
. "$(dirname "$(readlink -f "${BASH_SOURCE[0]}")")/common.sh"

python3 "$root/tests/limits.py" "$program"
