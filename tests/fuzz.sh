#!/usr/bin/env bash
# fuzz.sh SEED COUNT: the built program over so many mutants of models, sessions and certificates. Each has to end within a
# second with a status of the table. It is no part of the gate.
# shellcheck source-path=SCRIPTDIR source=common.sh
. "$(dirname "$(readlink -f "${BASH_SOURCE[0]}")")/common.sh"

if [ $# != 2 ]; then
    echo 'usage: fuzz.sh SEED COUNT' >&2
    exit 2
fi
python3 "$root/tests/mutants.py" fuzz "$program" "$1" "$2"
