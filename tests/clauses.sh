#!/usr/bin/env bash
# Prints the clauses of the models of random/ and of searches/ and compares them, number by number, with those that an
# independent reference program, which is not part of this repository, gave them: those of clauses/NN.out are of
# random/NN.lv; for other models clauses/sums.txt says how many clauses there are and what the SHA-256 sum of their list
# is. Builds the program crates/benches, whose `compile` says what its words mean.
# shellcheck source-path=SCRIPTDIR source=common.sh
. "$(dirname "$(readlink -f "${BASH_SOURCE[0]}")")/common.sh"

program="$root/crates/benches/out/benches"
# What the gate has just built need not be proved again.
if [ ! -x "$program" ] || [ -n "$(find "$root"/crates/*/{src,specs,proofs} -newer "$program" -print -quit 2>/dev/null)" ]; then
    if ! (cd "$root/crates/benches" && rt run >/dev/null); then
        echo 'the program that prints clauses could not be built, so nothing was tried'
        exit 1
    fi
fi

# a folder without spaces in its name, since the program's words are cut at spaces
cd "$root/tests" || exit 1

# the clauses of the model in a file
list() {
    run compile "list $1" </dev/null
}

for list in clauses/[0-9]*.out; do
    number="$(basename "$list" .out)"
    list "random/$number.lv"
    expect_files "$list" 0 "$list" /dev/null
done

while read -r name count sum; do
    list "$name.lv"
    read -r found _ < <(sha256sum "$work/out")
    printf '%s clauses, sum %s\n' "$(wc -l <"$work/out")" "$found" >"$work/told"
    mv "$work/told" "$work/out"
    expect "$name" 0 "$count clauses, sum $sum" ''
done <clauses/sums.txt

verdict
