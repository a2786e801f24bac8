#!/usr/bin/env bash
# Each growth of memory refused once, over a few runs of the built program. It is no part of the gate, and wants a C compiler.
# shellcheck source-path=SCRIPTDIR source=common.sh
. "$(dirname "$(readlink -f "${BASH_SOURCE[0]}")")/common.sh"

python3 "$root/tests/allocations.py" "$program"
