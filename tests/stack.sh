#!/usr/bin/env bash
# The stack that the deepest formulas take of the built program, in goals, laws and mode formulas and in printing: the least
# `ulimit -s` with which each is answered, in steps of 4 KB. It is no part of the gate.
# shellcheck source-path=SCRIPTDIR source=common.sh
. "$(dirname "$(readlink -f "${BASH_SOURCE[0]}")")/common.sh"

python3 "$root/tests/stack.py" "$program" 256
