#!/usr/bin/env bash
# Runs the built program over model texts and an empty session: each is accepted, or refused with the line and the code
# that an independent reference program, which is not part of this repository, gives.
#
# The texts of models.txt each begin with a line `== accepted: NAME` or `== model LINE Mnn: NAME`, where the words before
# the colon are what standard error is to say. Their lines may hold the escapes of printf's %b; `\c` at the end of the
# last line leaves out its line feed. The texts that are too large for a table are made below.
# shellcheck source-path=SCRIPTDIR source=common.sh
. "$(dirname "$(readlink -f "${BASH_SOURCE[0]}")")/common.sh"

: >"$work/silence"

# try VERDICT NAME: runs the program over $work/model.lv.
try() {
    local wanted=3 error=refusal
    if [ "$1" = accepted ]; then
        wanted=0 error=silence
    fi
    echo "$1" >"$work/refusal"
    run run "$work/model.lv" "$work/silence" </dev/null
    expect_files "$2" "$wanted" "$work/silence" "$work/$error"
}

# The models of the table.
name=''
while IFS= read -r line; do
    if [[ "$line" == '== '* ]]; then
        [ -z "$name" ] || try "$verdict" "$name"
        name="${line#*: }"
        verdict="${line#== }"
        verdict="${verdict%%: *}"
        : >"$work/model.lv"
    else
        printf '%b\n' "$line" >>"$work/model.lv"
    fi
done <"$root/tests/models.txt"
try "$verdict" "$name"

# many N TEXT: the text N times.
many() {
    local i
    for ((i = 0; i < $1; i++)); do printf '%s' "$2"; done
}

# numbered N BEFORE AFTER: for each number from 1 to N a line of the three.
numbered() {
    local i
    for ((i = 1; i <= $1; i++)); do echo "$2$i$3"; done
}

# large VERDICT NAME: the same for the model on standard input.
large() {
    cat >"$work/model.lv"
    try "$1" "$2"
}

# A small model, of six lines, without its last ones, which are `end` and a part.
open_type() {
    printf '%s\n' 'domain d a b' 'type t' 'control c d' 'mode m'
}
closed_type() {
    printf '%s\n' 'end' 'part p t m'
}
small() {
    open_type
    closed_type
}

# Lines: a comment of the length given, and a statement filled up with spaces to it. Too long comes before a bad byte in
# the line, and before all else in it; a line above comes first.
comment_of() {
    printf '#%s\n' "$(many $(($1 - 1)) x)"
}
spaces_4086="$(many 4086 ' ')"
large accepted 'a comment of 4096 bytes' < <(small; comment_of 4096)
large 'model 7 M03' 'a comment of 4097 bytes' < <(small; comment_of 4097)
large accepted 'a comment of 4096 bytes and a CR' < <(small; comment_of 4096 | sed 's/$/\r/')
large 'model 7 M02' 'a line of 4096 bytes and two CRs' < <(small; echo "law$(many 4085 ' ')p.c = a" | sed 's/$/\r\r/')
large 'model 7 M03' 'a comment of 4096 bytes and two CRs' < <(small; comment_of 4096 | sed 's/$/\r\r/')
large accepted 'a statement of 4096 bytes' < <(small; echo "law${spaces_4086}p.c = a")
large 'model 7 M03' 'a statement of 4097 bytes' < <(small; echo "law $spaces_4086"'p.c = a')
large 'model 7 M03' 'a line of 4097 bytes without its line feed' < <(small; printf 'law %sp.c = a' "$spaces_4086")
large 'model 7 M03' 'too long, and a bad byte first' < <(small; echo "\$$(many 4096 ' ')")
large 'model 7 M03' 'too long, and an unknown word' < <(small; echo "jump$(many 4096 ' ')")
large 'model 7 M03' 'too long, and 65 parentheses' < <(small; echo "law $(many 65 '(')$(many 4096 ' ')")
large 'model 7 M03' 'too long, and out of form' < <(small; echo "law$(many 4096 ' ')")
large 'model 5 M03' 'too long, and a cost of 0' < <(open_type; echo "fault m -> m cost 0$(many 4096 ' ')"; closed_type)
large 'model 7 M03' 'too long, below a name that is not known' < <(open_type; echo 'in n c = a'; closed_type | head -1; comment_of 4097; closed_type | tail -1)
large 'model 1 M02' 'too long, below a bad byte' < <(echo '$'; comment_of 4097; small)
large 'model 1 M03' 'too long, above a bad byte' < <(comment_of 4097; echo '$'; small)
large 'model 1 M03' 'too long, in a text without a part' < <(comment_of 4097)

# Numbers.
large 'model 5 M06' 'a number of 200 digits' < <(open_type; echo "fault m -> m cost $(many 200 7)"; closed_type)
large accepted 'a number of 200 digits, all but the last 0' < <(open_type; echo "fault m -> m cost $(many 199 0)7"; closed_type)
large 'model 5 M06' 'a number of 4000 digits' < <(open_type; echo "fault m -> m cost $(many 4000 9)"; closed_type)

# Statements: there is no limit on their number.
large accepted '200 lines with tokens' < <(small; many 194 $'law p.c = a\n')
large accepted '10000 lines with tokens' < <(small; many 9994 $'law p.c = a\n')
large 'model 10001 M05' 'the last of many lines out of form' < <(small; many 9994 $'law p.c = a\n'; echo 'law')

# Parts, and the variables of the model: each part has its mode among them.
wide_type() {
    printf '%s\n' 'domain d a b' 'type t'
    numbered "$1" 'variable x' ' d'
    printf '%s\n' 'mode m' 'end' 'part p t m'
}
large accepted '256 parts' < <(small; numbered 255 'part q' ' t m')
large 'model 262 M12' '257 parts' < <(small; numbered 256 'part q' ' t m')
large 'model 262 M08' '257 parts, the last of an unknown type' < <(small; numbered 255 'part q' ' t m'; echo 'part r u m')
large 'model 262 M07' '257 parts, the last of a name in use' < <(small; numbered 255 'part q' ' t m'; echo 'part p t m')
large 'model 263 M10' 'a part too many, below a statement in the wrong place' < <(echo '# one'; small; numbered 255 'part q' ' t m'; echo 'end'; echo 'part r t m')
large accepted '4096 variables in 256 parts' < <(wide_type 15; numbered 255 'part q' ' t m')
large 'model 261 M12' '4097 variables in 241 parts' < <(wide_type 16; numbered 240 'part q' ' t m')
large accepted '4096 variables in one part' < <(wide_type 4095)
large 'model 4101 M12' '4097 variables in one part' < <(wide_type 4096)
large accepted '5000 variables in a type that no part uses' < <(small; echo 'type u'; numbered 5000 'variable x' ' d'; printf '%s\n' 'mode m' 'end')

# Modes and moves: each mode has its stay among the moves, and the type starts with one of each.
large accepted '16 modes' < <(open_type; numbered 15 'mode n' ''; closed_type)
large 'model 20 M12' '17 modes' < <(open_type; numbered 16 'mode n' ''; closed_type)
large 'model 20 M07' '17 modes, the last of a name in use' < <(open_type; numbered 15 'mode n' ''; echo 'mode m'; closed_type)
large 'model 24 M12' '17 modes in a type that no part uses' < <(small; echo 'type u'; numbered 17 'mode n' ''; echo 'end')
large accepted '64 moves, the last a step' < <(open_type; many 63 $'step m -> m when c = b\n'; closed_type)
large 'model 68 M12' '65 moves, the last a step' < <(open_type; many 64 $'step m -> m when c = b\n'; closed_type)
large accepted '64 moves, the last a fault' < <(open_type; many 40 $'step m -> m when c = b\n'; many 23 $'fault m -> m cost 1\n'; closed_type)
large 'model 68 M12' '65 moves, the last a fault' < <(open_type; many 40 $'step m -> m when c = b\n'; many 24 $'fault m -> m cost 1\n'; closed_type)
large 'model 68 M12' '65 moves, the last a stay' < <(open_type; many 63 $'fault m -> m cost 1\n'; echo 'mode n'; closed_type)
large 'model 72 M12' '65 moves in a type that no part uses' < <(small; printf '%s\n' 'type u' 'mode m'; many 64 $'fault m -> m cost 1\n'; echo 'end')

# A move too many that has another fault too.
crowded() {
    open_type
    many 63 $'fault m -> m cost 1\n'
    echo "$1"
    closed_type
}
product() {
    local members
    members="$(many "$1" '|(c=a&c=b)')"
    echo "${members#|}"
}
large 'model 68 M06' '65 moves, the last of cost 0' < <(crowded 'fault m -> m cost 0')
large 'model 68 M08' '65 moves, the last from an unknown mode' < <(crowded 'fault n -> m cost 1')
large 'model 68 M09' '65 moves, the guard of the last without a fit' < <(crowded 'step m -> m when c = z')
large 'model 68 M14' '65 moves, the guard of the last of too many clauses' < <(crowded "step m -> m when $(product 13)")
large 'model 68 M12' '65 moves, the guard of the last of 4096 clauses' < <(crowded "step m -> m when $(product 12)")

# The clauses of the model: five for each part of the bare model. A law of 2 to the power of N clauses counts twice, for
# both ends of a step.
law_of() {
    local members
    members="$(many "$1" '|(p.m=a&p.m=a)')"
    echo "law ${members#|}" | sed 's/\.m=a/.mode=m/g'
}
bare() {
    printf '%s\n' 'type t' 'mode m' 'end' 'part p t m' 'part q t m'
}
full_laws() {
    many 127 "$(law_of 12)"$'\n'
}
nearly_full_laws() {
    local power
    for power in 11 10 9 8 7 6 5 4 3; do law_of "$power"; done
}
large accepted '1048572 clauses' < <(bare; full_laws; nearly_full_laws; echo 'law p.mode = m')
large accepted '1048576 clauses' < <(bare; full_laws; nearly_full_laws; printf '%s\n' 'law p.mode = m & p.mode = m & q.mode = m')
large 'model 145 M12' '1048578 clauses, by a law' < <(bare; full_laws; nearly_full_laws; many 4 $'law p.mode = m\n')
large 'model 145 M12' '1048581 clauses, by a part' < <(bare; full_laws; nearly_full_laws; many 3 $'law p.mode = m\n'; echo 'part r t m')
large 'model 145 M14' 'a law of too many clauses in a full model' < <(bare; full_laws; nearly_full_laws; many 3 $'law p.mode = m\n'; law_of 13)
large 'model 145 M07' 'a part of a name in use in a full model' < <(bare; full_laws; nearly_full_laws; many 3 $'law p.mode = m\n'; echo 'part q t m')
large 'model 133 M12' '128 laws of 4096 clauses' < <(bare; full_laws; law_of 12; law_of 12)
many_clauses_type() {
    printf '%s\n' 'domain d a b' 'type t' 'control c d' 'mode m' "in m $(product 12)" 'end'
}
large accepted '127 parts of 8192 clauses and some' < <(many_clauses_type; numbered 127 'part p' ' t m')
large 'model 134 M12' '128 parts of 8192 clauses and some' < <(many_clauses_type; numbered 128 'part p' ' t m')

# Values and names.
values() {
    numbered "$1" ' v' '' | tr -d '\n'
}
large accepted '32 values, made' < <(echo "domain e$(values 32)"; small)
large 'model 1 M12' '33 values, made' < <(echo "domain e$(values 33)"; small)
large 'model 1 M07' '34 values, one twice' < <(echo "domain e$(values 33) v1"; small)
for length in 64 65; do
    word="$(many "$length" n)"
    # long_name LINE NAME: a new name of this length, which the line has.
    long_name() {
        local verdict=accepted
        [ "$length" = 64 ] || verdict="model $1 M12"
        large "$verdict" "$2 of $length bytes"
    }
    long_name 1 "a model's name" < <(echo "model $word"; small)
    long_name 1 "a domain's name" < <(echo "domain $word a b"; small)
    long_name 1 "a value's name" < <(echo "domain e $word"; small)
    long_name 7 "a type's name" < <(small; echo "type $word"; printf '%s\n' 'mode m' 'end')
    long_name 5 "a control's name" < <(open_type; echo "control $word d"; closed_type)
    long_name 5 "a variable's name" < <(open_type; echo "variable $word d"; closed_type)
    long_name 5 "an observable's name" < <(open_type; echo "observable $word d"; closed_type)
    long_name 5 "a mode's name" < <(open_type; echo "mode $word"; closed_type)
    long_name 7 "a part's name" < <(small; echo "part $word t m")
done
word="$(many 65 n)"
large 'model 5 M08' 'a name too long, of an unknown domain' < <(open_type; echo "control $word e"; closed_type)
large 'model 7 M08' 'a name too long, of an unknown type' < <(small; echo "part $word u m")
large 'model 7 M10' 'a name too long, in the wrong place' < <(small; echo "mode $word")
large 'model 1 M07' 'names too long that are equal' < <(echo "domain e $word $word"; small)
large 'model 5 M08' 'a mode too long that is not known' < <(open_type; echo "in $word c = a"; closed_type)

# The longest text: a valve, then comments of 64 bytes with their line feeds, then one that fills it up. A longer one is
# refused before its lines are looked at.
valve="$root/examples/valve.lv"
filled_up() {
    local rest
    rest=$(($1 - $(wc -c <"$work/front")))
    cat "$work/front"
    yes '# a comment that says nothing at all, and says it again, at len' | head -c $((rest - rest % 64))
    printf '#%s\n' "$(many $((rest % 64 - 2)) x)"
}
cp "$valve" "$work/front"
large accepted 'a text of 4194304 bytes' < <(filled_up 4194304)
large 'model 0 M01' 'a text of 4194305 bytes' < <(filled_up 4194305)
echo '$ is a bad byte in line 1' >"$work/front"
large 'model 1 M02' 'a text of 4194304 bytes with a bad byte' < <(filled_up 4194304)
large 'model 0 M01' 'a text of 4194305 bytes with a bad byte' < <(filled_up 4194305)
echo 'jump' >"$work/front"
large 'model 0 M01' 'a text of 4194305 bytes with an unknown word' < <(filled_up 4194305)
echo 'end' >"$work/front"
large 'model 0 M01' 'a text of 4194305 bytes with a statement in the wrong place' < <(filled_up 4194305)
line_feeds() {
    head -c "$1" /dev/zero | tr '\0' '\n'
}
large 'model 4194305 M15' 'a text of 4194304 line feeds' < <(line_feeds 4194304)
large 'model 0 M01' 'a text of 4194305 line feeds' < <(line_feeds 4194305)
large 'model 1 M03' 'a text of 4194304 bytes in one line' < <(head -c 4194304 /dev/zero)
large 'model 0 M01' 'a text of 4194305 bytes in one line' < <(head -c 4194305 /dev/zero)

verdict
