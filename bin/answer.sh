# shellcheck shell=bash
# How a command answers: it takes a file, has a program say what is to be said of it, and prints that. The proved programs have one exit status, and what they have
# written cannot be taken back if something fails later. So its output is collected, and printed only if it is whole. For a command that has command.sh and
# build.sh; bin/commands/ has a file for each.
# shellcheck disable=SC2034,SC2154,SC2317 # the command's own; called by what it reads

# Reads the file of a command, which sets what follows or leaves it as it is here.
load() { # command
    answer=                       # what it makes, in a word for messages
    forms=()                      # for its usage, in turn: words behind its name, and what they are for
    statuses=()                   # for the same: its exit statuses below 2, and what they mean
    refusal='the file is refused' # for the same: what status 2 means
    more=0                        # how many words stand behind FILE. If none do, FILE may be left out for standard input
    demo=()                       # these words for --demo
    fits() { :; }                 # whether `words`, which stand behind FILE, are right
    # It also has `ready`, which finds what has to be built and sets `program`, the words that run it, and `judge`, which tells whether `lines`, what the program
    # wrote, are a whole answer, and sets `decided`, the status, where that is not 0. Where its words are others than FILE and what stands behind, it has a `take`
    # of its own.
    # shellcheck source=/dev/null
    . "$root/bin/commands/$1.sh"
}

# Sets `file`, if one is named, and `words`.
take() { # the words of the command line
    words=() named=yes
    case "$#:${1-}" in
    1:--help) show usage ;;
    1:--demo)
        file="$root/examples/night.footprint" words=("${demo[@]}")
        return 0
        ;;
    esac
    case "${1-}" in
    --) shift ;;
    -*) misused ;;
    esac
    if [ "$#:$more" = 0:0 ]; then
        named=no
        return 0
    fi
    [ "$#" -eq $((1 + more)) ] || misused
    file="$1" words=("${@:2}")
    fits || misused
}

usage() {
    local rows=("${forms[@]}" '--help' 'this text') i width=0
    for ((i = 0; i < ${#rows[@]}; i += 2)); do
        [ ${#rows[i]} -le "$width" ] || width=${#rows[i]}
    done
    for ((i = 0; i < ${#rows[@]}; i += 2)); do
        rows[i]="$(printf '%s %-*s' "$name" "$width" "${rows[i]}")"
    done
    printf '%s    %s\n' "usage: ${rows[0]}" "${rows[1]}" && printf '       %s    %s\n' "${rows[@]:2}" && echo && explain
}

# The exit statuses.
explain() {
    local rows=("${statuses[@]}" 2 "$refusal; the line 'refused N at P' has the number and the place"
        3 "wrong usage, or something could not be read, written, built or run, or the $answer is not whole")
    printf 'exit status: %s  %s\n' "${rows[@]:0:2}" && printf '             %s  %s\n' "${rows[@]:2}"
}

# Prints what was asked for in place of an answer.
show() { # function
    "$1" || cannot 'cannot write to standard output'
    status=0
    exit
}

misused() {
    usage >&2 || :
    exit 3
}

# Answers the command line.
respond() { # its words
    local ended=0 decided=0 refused=''
    take "$@"
    case "$input:$named:${file-}" in
    closed:no:* | closed:yes:/dev/stdin | closed:yes:/dev/fd/0) cannot 'standard input is closed' ;;
    esac
    if [ "$named" = yes ]; then
        [ -e "$file" ] || cannot "there is no file ${file@Q}, or it is out of reach"
        [ ! -d "$file" ] || cannot "${file@Q} is a directory"
        [ -r "$file" ] || cannot "${file@Q} may not be read"
    fi
    scratch="$(mktemp -d)" || cannot 'cannot make a temporary directory'
    ready
    if [ "$named" = yes ]; then
        { exec <"$file"; } 2>/dev/null || cannot "${file@Q} cannot be opened"
    fi
    run "${program[@]}" >"$scratch/answer" || ended=$?
    [ "$ended" -eq 0 ] || cannot "no $answer: the program ended with status $ended"
    [ -s "$scratch/answer" ] || cannot "no $answer: the program wrote nothing, because the file could not be read, or the $answer could not be written"
    collect || cannot "no $answer: what the program wrote is not whole"
    run cat "$scratch/answer" || cannot "the $answer could not be written to standard output, or not whole"
    [ -z "$refused" ] || say "refused $refused: $(words_of "$refused")"
    status="$decided"
}

number='(0|[1-9][0-9]*)'
refusal_line="^refused ([1-9][0-9]*) at $number\$"

# Whether what the program wrote is a whole answer or a refusal.
collect() {
    local lines=()
    mapfile -t lines <"$scratch/answer"
    printf '%s\n' "${lines[@]}" | cmp -s - "$scratch/answer" || return 1 # it has a NUL, or no line feed at its end
    if [ ${#lines[@]} -eq 1 ] && [[ ${lines[0]} =~ $refusal_line ]]; then
        refused="${BASH_REMATCH[1]}" decided=2
        return 0
    fi
    judge
}

# The words of a refusal, from the table that has them for all: number, name, of, place, words, with a tab between.
words_of() { # number
    local found words
    while IFS=$'\t' read -r found _ _ _ words; do
        [ "$found" != "$1" ] || break
        words=
    done 2>/dev/null <"$root/refusals.tsv" || :
    printf '%s' "${words:-a number that has no words here}"
}
