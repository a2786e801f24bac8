#!/usr/bin/env bash
# A thousand mutants of models, sessions and certificates, and some that know windows, probes and tests too: status, line and
# output are those that an independent reference program, which is not part of this repository, had.
# shellcheck source-path=SCRIPTDIR source=common.sh
. "$(dirname "$(readlink -f "${BASH_SOURCE[0]}")")/common.sh"

python3 "$root/tests/mutants.py" compare "$program" "$root/tests/mutants/table.txt" first
first=$?
python3 "$root/tests/mutants.py" compare "$program" "$root/tests/mutants/later.txt" all && [ "$first" = 0 ]
