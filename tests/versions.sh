#!/usr/bin/env bash
# Runs the built program over the texts NNN.lv of versions/, which are of both versions of the model language: what
# `print` writes is compared with NNN.out, and the replies to versions/session.ses with NNN.run; a text that is to be
# refused has NNN.err, the line of standard error. An independent reference program, which is not part of this
# repository, wrote these. What was printed gives the same replies, and is printed as it is.
# shellcheck source-path=SCRIPTDIR source=common.sh
. "$(dirname "$(readlink -f "${BASH_SOURCE[0]}")")/common.sh"

session="$root/tests/versions/session.ses"
for model in "$root"/tests/versions/[0-9]*.lv; do
    text="${model%.lv}"
    name="${text#"$root/tests/"}"
    run print "$model" </dev/null
    if [ -e "$text.err" ]; then
        expect_files "$name" 3 /dev/null "$text.err"
        continue
    fi
    expect_files "$name" 0 "$text.out" /dev/null
    run print "$text.out" </dev/null
    expect_files "$name, printed again" 0 "$text.out" /dev/null
    for source in "$model" "$text.out"; do
        run run "$source" "$session" </dev/null
        expect_files "$name, session" 0 "$text.run" /dev/null
    done
done

verdict
