#!/usr/bin/env bash
# Runs the built program as a checker: the worked certificates and rows of changed ones, forms, limits, files that can't be
# read and pipes, and then the tables of certificates/, with the verdicts of an independent reference program, which is not part
# of this repository.
# shellcheck source-path=SCRIPTDIR source=common.sh
. "$(dirname "$(readlink -f "${BASH_SOURCE[0]}")")/common.sh"

model="$root/examples/valve.lv"
worked="$root/examples/valve.cert"
contradiction="$root/tests/certificates/contradiction.cert"
cd "$work" || exit 1

# judged NAME CERTIFICATE EDIT ANSWER: the answer for a certificate after an edit by sed.
judged() {
    sed "$3" "$2" >changed.cert
    run check "$model" changed.cert </dev/null
    if [ "$4" = valid ]; then
        expect "$1" 0 valid ''
    else
        expect "$1" 9 "$4" ''
    fi
}

# The worked certificates, and changed ones.
judged 'the worked certificate' "$worked" '' valid
judged 'line 11 without its last hint' "$worked" '11s/ 35 0$/ 0/' 'invalid 11'
judged 'line 11 with its last hint twice' "$worked" '11s/ 35 0$/ 35 35 0/' 'invalid 11'
judged 'without line 19' "$worked" 19d 'invalid 19'
judged 'line 11 with its first hints swapped' "$worked" '11s/117 92/92 117/' 'invalid 11'
judged 'a hint at the line itself' "$worked" '13s/.*/clause 0 118 0/' 'invalid 13'
judged 'a split by another conflict' "$worked" '17s/.*/split 1 conflict 2/' 'invalid 17'
judged 'a split by a second listed one' "$worked" '18s/.*/split 3 listed 2/' 'invalid 18'
judged 'a mode that is not there' "$worked" '4s/.*/state 0 5/' 'invalid 4'
judged 'other moves listed' "$worked" '7s/.*/listed 1 4/' 'invalid 9'
judged 'without line 20' "$worked" 20d 'invalid 20'
judged 'k 1' "$worked" '3s/.*/k 1/' valid
judged 'k 1 and without line 19' "$worked" '3s/.*/k 1/;19d' valid
judged 'distinct targets' "$worked" '3s/$/ distinct/' valid
judged 'a split by a target' "$worked" '3s/$/ distinct/;18s/listed/target/' valid
judged 'a split by a target before which a member ranks' "$worked" '3s/$/ distinct/;16s/.*/split 1 target 1/' 'invalid 16'
judged 'a split by a target that is not asked for' "$worked" '18s/listed/target/' 'invalid 18'
judged 'a split by the target of a second listed one' "$worked" '3s/$/ distinct/;18s/.*/split 3 target 2/' 'invalid 18'
judged 'another word behind the limit' "$worked" '3s/$/ target/' 'invalid 3'
judged 'distinct targets, k 65' "$worked" '3s/.*/k 65 distinct/' 'invalid 3'
judged 'the worked certificate of a contradiction' "$contradiction" '' valid
judged 'that without line 10' "$contradiction" 10d 'invalid 10'

# Line feeds, CRs and blanks.
judged 'a CR behind the last line' "$worked" '20s/$/\r/' 'invalid 20'
judged 'a CR behind the name' "$worked" '2s/$/\r/' 'invalid 2'
judged 'a CR behind a number' "$worked" '3s/$/\r/' 'invalid 3'
judged 'CRs everywhere' "$worked" 's/$/\r/' 'invalid 1'
judged 'a blank at the end of a line' "$worked" '16s/$/ /' 'invalid 16'
judged 'two blanks' "$worked" '16s/1/ 1/' 'invalid 16'
judged 'an empty line behind the last' "$worked" '20s/$/\n/' 'invalid 21'
judged 'a comment' "$worked" '1s/$/ # x/' 'invalid 1'
head -c -1 "$worked" >torn.cert
run check "$model" torn.cert </dev/null
expect 'a last line without its line feed' 9 'invalid 20' ''
head -c 100 "$worked" >torn.cert
run check "$model" torn.cert </dev/null
expect 'a torn line' 9 'invalid 9' ''
: >empty.cert
run check "$model" empty.cert </dev/null
expect 'an empty certificate' 9 'invalid 1' ''
run check "$model" "$model" </dev/null
expect 'a model as certificate' 9 'invalid 1' ''

# Spellings of numbers. A line out of form is told before an earlier one that is bad.
judged 'a hint 0' "$worked" '11s/117/0/' 'invalid 11'
judged 'a hint below 0' "$worked" '11s/117/-117/' 'invalid 11'
judged 'a hint with a sign' "$worked" '11s/117/+117/' 'invalid 11'
judged 'no hints' "$worked" '11s/.*/clause 0 0/' 'invalid 11'
judged 'no second 0' "$worked" '11s/.*/clause 0/' 'invalid 11'
judged 'a literal -0, behind a bad line' "$worked" '3s/4/65/;11s/.*/clause -0 0 117 0/' 'invalid 11'
judged 'a literal of no boolean, behind a bad line' "$worked" '3s/4/65/;11s/.*/clause -33 0 117 0/' 'invalid 3'
judged 'leading zeros, behind a bad line' "$worked" '3s/4/65/;16s/1/01/' 'invalid 16'
judged 'a cost of 10^30, behind a bad line' "$worked" "3s/4/65/;4s/0/1$(printf '0%.0s' {1..30})/" 'invalid 3'
judged 'a cost of 10^30 + 1, behind a bad line' "$worked" "3s/4/65/;4s/0/1$(printf '0%.0s' {1..29})1/" 'invalid 4'
judged 'a hint of 10^30' "$worked" "11s/117/1$(printf '0%.0s' {1..30})/" 'invalid 11'
judged 'a hint of 2^64 more' "$worked" '11s/117/18446744073709551733/' 'invalid 11'
judged 'a hint of 2^32 more' "$worked" '11s/117/4294967413/' 'invalid 11'
judged 'a cost of 10^15' "$worked" '4s/0/1000000000000000/' valid
judged 'a cost of 10^15 + 1' "$worked" '4s/0/1000000000000001/' 'invalid 4'
judged 'a k of 64' "$worked" '3s/4/64/' valid
judged 'a k of 0' "$worked" '3s/4/0/' 'invalid 7'

# Certificates of its limit of 67,108,864 bytes, and of one more.
{
    printf 'certificate diagnosis\nmodel '
    head -c $((67108864 - 29)) /dev/zero | tr '\0' x
    echo
} >long.cert
run check "$model" long.cert </dev/null
expect 'a certificate of 67108864 bytes' 9 'invalid 3' ''
echo >>long.cert
run check "$model" long.cert </dev/null
expect 'a certificate of 67108865 bytes' 7 '' 'certificate too long'

# Which file is at fault: the words are judged first, then the model, and then the certificate.
echo 'no model' >refused.lv
mkdir folder
: >locked
chmod 000 locked
run check "$model" </dev/null
expect 'no certificate' 2 '' 'usage: livingstone run MODEL SESSION, check MODEL CERT, print MODEL, generate KIND N, drive N, lanes MODEL SESSION, plant MODEL SCRIPT'
run check refused.lv absent.cert </dev/null
expect 'a text that is no model, whose certificate is not opened' 3 '' 'model 1 M04'
run check absent.lv long.cert </dev/null
expect 'an absent model' 4 '' 'cannot read model'
run check "$model" absent.cert </dev/null
expect 'an absent certificate' 5 '' 'cannot read certificate'
run check "$model" folder </dev/null
expect 'a folder as certificate' 5 '' 'cannot read certificate'
run check "$model" "$model/x" </dev/null
expect 'a certificate below a file' 5 '' 'cannot read certificate'
run check "$model" '' </dev/null
expect 'an empty word' 5 '' 'cannot read certificate'
if [ "$(id -u)" != 0 ]; then
    run check "$model" locked </dev/null
    expect 'a certificate that may not be read' 5 '' 'cannot read certificate'
fi

# Standard input, a pipe in slow pieces, and a name that begins with -.
run check "$model" stdin <"$worked"
expect 'a certificate on standard input' 0 valid ''
run check stdin "$worked" <"$model"
expect 'a model on standard input' 0 valid ''
run check stdin stdin <"$model"
expect 'standard input twice' 5 '' 'cannot read certificate'
cp "$worked" ./-c
run check "$model" -- -c </dev/null
expect 'a name that begins with -' 0 valid ''
mkfifo pipe
while IFS= read -r line; do
    printf '%s' "$line"
    printf '\n'
done <"$worked" >pipe &
run check "$model" pipe </dev/null
wait
expect 'a certificate over a named pipe' 0 valid ''

# Outputs that can't be written, and want of memory.
for text in "$worked" empty.cert; do
    timeout 60 "$program" check "$model" "$text" >/dev/full 2>err </dev/null
    status=$?
    : >out
    expect "a full disk: $text" 6 '' ''
done
timeout 60 "$program" check "$model" absent.cert >out 2>/dev/full </dev/null
status=$?
: >err
expect 'a full device as standard error' 6 '' ''
(ulimit -v 32768 && exec "$program" check "$model" long.cert >out 2>err </dev/null)
status=$?
expect 'a certificate that is larger than the memory' 8 '' 'out of memory'

# The tables.
python3 "$root/tests/certificates/run.py" "$program" "$root"/tests/certificates/{worked,random,distinct}.txt
tables=$?

verdict && [ "$tables" = 0 ]
