#!/usr/bin/env bash
# Runs the built program over the pairs NN.lv and NN.ses of random/, searches/, recoveries/, probes/, telling/, distinct/, islands/ and windows/, and compares what
# it writes and how it ends with NN.out, which an independent reference program, which is not part of this repository, wrote. A model that
# is to be refused has a file NN.err too.
# shellcheck source-path=SCRIPTDIR source=common.sh
. "$(dirname "$(readlink -f "${BASH_SOURCE[0]}")")/common.sh"

for model in "$root"/tests/{random,searches,recoveries,probes,telling,distinct,islands,windows}/[0-9]*.lv; do
    pair="${model%.lv}"
    wanted=0
    error=/dev/null
    if [ -e "$pair.err" ]; then
        wanted=3
        error="$pair.err"
    fi
    run run "$model" "$pair.ses" </dev/null
    expect_files "${pair#"$root/tests/"}" "$wanted" "$pair.out" "$error"
done

verdict
