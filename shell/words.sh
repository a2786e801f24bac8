# shellcheck shell=bash
# What the launcher and first-look share: which words the program accepts. The program judges its words itself; this is
# asked only where there is no built program yet, so that wrong words wait for no proof.

# The program's own line, which stands here once more; both callers print it.
# shellcheck disable=SC2034
usage='usage: livingstone run MODEL SESSION, check MODEL CERT, print MODEL, generate KIND N, drive N, lanes MODEL SESSION, plant MODEL SCRIPT'

# is_number WORD: digits alone, of a number from 1 to 1,000,000.
is_number() {
    local digits
    [[ "$1" =~ ^0*([0-9]+)$ ]] || return 1
    digits="${BASH_REMATCH[1]}"
    [ "${#digits}" -le 7 ] && [ "$digits" -ge 1 ] && [ "$digits" -le 1000000 ]
}

# is_text WORD..: each word is UTF-8. Without iconv it is left to the program to judge that.
is_text() {
    command -v iconv >/dev/null || return 0
    printf '%s\n' "$@" | iconv -f UTF-8 -t UTF-8 >/dev/null 2>&1
}

# are_accepted WORD..: the program accepts the words; `names` are then those behind the command, without the first `--`.
names=()
are_accepted() {
    local command="${1-}" word is_behind=''
    names=()
    [ $# -gt 0 ] && is_text "$@" || return 1
    shift
    for word in "$@"; do
        if [ -z "$is_behind" ] && [ "$word" = -- ]; then
            is_behind=1
        elif [ -z "$is_behind" ] && [[ "$word" == -* ]]; then
            return 1
        else
            names+=("$word")
        fi
    done
    case "$command ${#names[@]}" in
    'run 2' | 'lanes 2' | 'plant 2' | 'check 2' | 'print 1') ;;
    'generate 2') [[ "${names[0]}" == model || "${names[0]}" == session ]] && is_number "${names[1]}" ;;
    'drive 1') is_number "${names[0]}" ;;
    *) return 1 ;;
    esac
}
