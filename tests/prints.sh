#!/usr/bin/env bash
# Runs the built program with `print` over the texts prints/NAME.lv and the models of examples/, and compares what it
# writes with prints/NAME.out, or, where the text is to be refused, with the line of standard error in prints/NAME.err.
# An independent reference program, which is not part of this repository, wrote both. What was printed is printed once
# more, and is to stay as it is.
# shellcheck source-path=SCRIPTDIR source=common.sh
. "$(dirname "$(readlink -f "${BASH_SOURCE[0]}")")/common.sh"

for model in "$root"/tests/prints/*.lv "$root"/examples/*.lv; do
    text="$root/tests/prints/$(basename "$model" .lv)"
    run print "$model" </dev/null
    if [ -e "$text.err" ]; then
        expect_files "prints/${text##*/}" 3 /dev/null "$text.err"
    else
        expect_files "prints/${text##*/}" 0 "$text.out" /dev/null
        run print "$text.out" </dev/null
        expect_files "prints/${text##*/}, printed again" 0 "$text.out" /dev/null
    fi
done

verdict
