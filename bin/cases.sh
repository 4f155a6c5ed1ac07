# shellcheck shell=bash
# Cases that every command has to pass, whoever answers: a proved program, Python or a stand-in. For a test that has trying.sh, stands in examples/, and has
# said `try`, and set
#   answer   what the command makes, as its messages have it
#   whole    what it prints of leak.footprint
#   done     the status then
#   input    how it is asked for standard input: without a word, or by /dev/stdin
#   usage    how its usage begins
# shellcheck disable=SC2016,SC2154 # lines for another shell; what the test sets

cut=$'refused 12 at 0\n'
cut_words='refused 12: the length in the trailer'
nobody_reads='exec 5> >(exec true); wait $!;'
head -c 65536 /dev/zero >"$scratch/long"
head -c 65537 /dev/zero >"$scratch/too_long"
mkfifo "$scratch/fifo"
mkdir "$scratch/names"
names=(-x -- --demo '1:a b' 'a:-b' $'two\nlines' '*')
for name in "${names[@]}"; do
    cp leak.footprint "$scratch/names/$name"
done
touch "$scratch/locked"
chmod 000 "$scratch/locked"
plain=() # words that take from root what lets it read every file
[ "$(id -u)" != 0 ] || plain=(setpriv '--bounding-set=-dac_override,-dac_read_search')

# What counts most, and is tried with what really answers.
main_cases() {
    asked_of 'a leak' "$done" "$whole" '' leak.footprint
    asked_of 'a file that was cut off' 2 "$cut" "$cut_words" cut_night.footprint
    asked_of 'endless bytes' 2 $'refused 11 at 0\n' 'refused 11: ' /dev/zero
    in_shell 'a file, and standard input closed' "$done" "$whole" '' 'ask leak.footprint <&-'
    asked_of 'a missing file' 3 '' "there is no file 'missing'" missing
    asked_of 'a directory' 3 '' "'.' is a directory" .
    expect 'a locked file' 3 '' "/locked' may not be read" "${plain[@]}" "${front[@]}" "$scratch/locked" "${behind[@]}"
    asked_of 'a file whose reading fails' 3 '' "no $answer: " /proc/self/mem
    in_shell 'standard input is closed' 3 '' 'standard input is closed' "ask $input <&-"
    for file in leak cut; do
        in_shell "$file, standard output is closed" 3 '' 'standard output is closed' 'ask "$1.footprint" >&-' "$file"
        in_shell "$file, the disk is full" 3 '' 'could not be written' 'ask "$1.footprint" >/dev/full' "$file"
        in_shell "$file, the temporary directory is full" 3 '' "no $answer: " \
            'all="$( (ulimit -f 0; ask "$1.footprint") 2>&1)"; ended=$?; echo "$all" >&2; exit $ended' "$file"
        in_shell "$file, a file may not grow" 3 '' '' 'ulimit -f 0; ask "$1.footprint" >"$2" 2>"$2.error"' "$file" "$scratch/grown"
    done
    in_shell 'a pipe that nobody reads' 3 '' 'could not be written' "$nobody_reads"' ask leak.footprint >&5'
    in_shell 'standard error is closed' "$done" "$whole" '' 'ask leak.footprint 2>&-'
    in_shell 'standard error is closed, refused' 2 "$cut" '' 'ask cut.footprint 2>&-'
    in_shell 'all three are closed' 3 '' '' 'ask leak.footprint <&- >&- 2>&-'
    in_shell 'no temporary directory' 3 '' 'cannot make a temporary directory' 'TMPDIR=/nowhere ask leak.footprint'
}

# The file comes through a pipe, cut anywhere: its end is where the pipe is closed, whatever comes before that and however late. For what really answers.
in_pieces() {
    local zeros='head -c "$1" /dev/zero; sleep 0.1; head -c "$2" /dev/zero'
    in_shell 'byte by byte' "$done" "$whole" '' "for ((i = 0; i < 84; i++)); do dd bs=1 count=1 status=none; sleep 0.005; done <leak.footprint | ask $input"
    in_shell 'byte by byte, cut off' 2 "$cut" "$cut_words" "for ((i = 0; i < 60; i++)); do dd bs=1 count=1 status=none; sleep 0.001; done <leak.footprint | ask $input"
    in_shell 'uneven pieces with pauses' "$done" "$whole" '' "(for n in 1 11 0 36 12; do head -c \$n; sleep 0.05; done; cat) <leak.footprint | ask $input"
    in_shell 'nothing for a while' "$done" "$whole" '' "(sleep 0.2; cat leak.footprint) | ask $input"
    in_shell 'a whole file, and its end later' "$done" "$whole" '' "(cat leak.footprint; sleep 0.2) | ask $input"
    in_shell 'a whole file, and a byte later' 2 "$cut" "$cut_words" "(cat leak.footprint; sleep 0.2; echo) | ask $input"
    in_shell 'a sender that is killed' 2 "$cut" "$cut_words" "(head -c 60 leak.footprint; kill -KILL \$BASHPID) | ask $input"
    in_shell 'nothing at all' 2 $'refused 11 at 0\n' 'refused 11: ' "sleep 0.1 | ask $input"
    in_shell '65,536 bytes in pieces' 2 "$cut" "$cut_words" "($zeros) | ask $input" 65535 1
    in_shell '65,536 bytes, and the end later' 2 "$cut" "$cut_words" "($zeros) | ask $input" 65536 0
    in_shell '65,537 bytes in pieces' 2 $'refused 11 at 0\n' 'refused 11: ' "($zeros) | ask $input" 65536 1
    in_shell 'a good file, and then too much' 2 $'refused 11 at 0\n' 'refused 11: ' "(cat night.footprint; sleep 0.1; cat night.footprint) | ask $input"
    in_shell 'endless lines' 2 $'refused 11 at 0\n' 'refused 11: ' "yes | ask $input"
    in_shell 'endless bytes, one by one' 2 $'refused 11 at 0\n' 'refused 11: ' "dd if=/dev/zero bs=1 status=none | ask $input"
    in_shell 'a good file, and then no end' 2 $'refused 11 at 0\n' 'refused 11: ' "(cat leak.footprint; sleep 0.1; yes) | ask $input"
}

# The others, which a stand-in will do for.
other_cases() { # all or less
    reads
    cannot_read
    cannot_write
    is_misused
    hears_no_environment "$1"
}

reads() {
    local pieces='(head -c 7; sleep 0.2; cat) <leak.footprint'
    asked_of 'a leak' "$done" "$whole" '' leak.footprint
    asked_of 'an empty file' 2 $'refused 11 at 0\n' 'refused 11: ' /dev/null
    asked_of '65,536 bytes' 2 "$cut" "$cut_words" "$scratch/long"
    asked_of '65,537 bytes' 2 $'refused 11 at 0\n' 'refused 11: ' "$scratch/too_long"
    in_shell 'standard input' "$done" "$whole" '' "ask $input <leak.footprint"
    in_shell 'standard input after --' "$done" "$whole" '' "ask -- $input <leak.footprint"
    in_shell 'a pipe, in pieces' "$done" "$whole" '' "$pieces | ask $input"
    in_shell 'a FIFO, in pieces' "$done" "$whole" '' "$pieces >\"\$1\" & ask \"\$1\"" "$scratch/fifo"
    in_shell '/dev/stdin' "$done" "$whole" '' 'ask /dev/stdin <leak.footprint'
    in_shell 'a file, and standard input is another' "$done" "$whole" '' 'ask leak.footprint <cut.footprint'
    cd "$scratch/names" || exit
    for name in "${names[@]}"; do
        asked_of "a file called $name, after --" "$done" "$whole" '' -- "$name"
        [[ $name = -* ]] || asked_of "a file called $name" "$done" "$whole" '' "$name"
    done
    asked_of 'a file called ./-x' "$done" "$whole" '' ./-x
    cd "$OLDPWD" || exit
}

cannot_read() {
    asked_of 'a name without letters' 3 '' "there is no file ''" ''
    in_shell '/dev/stdin is closed' 3 '' 'standard input is closed' 'ask /dev/stdin <&-'
    asked_of 'a name of nothing after --' 3 '' "there is no file '-x'" -- -x
    if [ -n "$input" ]; then
        in_shell 'standard input is a directory' 3 '' 'is a directory' "ask $input <."
    else
        in_shell 'standard input is a directory' 3 '' "no $answer: " 'ask <.'
        in_shell 'standard input is for writing' 3 '' "no $answer: " 'ask 0>"$1"' "$scratch/written"
    fi
}

cannot_write() {
    in_shell 'standard output is for reading' 3 '' 'could not be written' 'ask leak.footprint 1<clean.footprint'
    in_shell 'standard error is closed, no file' 3 '' '' 'ask missing 2>&-'
    in_shell 'standard error is full, refused' 2 "$cut" '' 'ask cut.footprint 2>/dev/full'
    in_shell 'standard error is full, no file' 3 '' '' 'ask missing 2>/dev/full'
    in_shell 'nobody reads standard error, no file' 3 '' '' "$nobody_reads"' ask missing 2>&5'
}

is_misused() {
    asked 'a word too many' 3 '' "$usage" leak.footprint "${behind[@]}" clean.footprint
    asked 'eleven words' 3 '' "$usage" 1 2 3 4 5 6 7 8 9 10 11
    asked 'a word too many after --' 3 '' "$usage" -- leak.footprint "${behind[@]}" clean.footprint
    asked_of 'an option that is none' 3 '' "$usage" --quiet
    asked_of 'a dash' 3 '' "$usage" -
    asked 'a demo of a file' 3 '' "$usage" --demo leak.footprint
    asked 'help with a file' 3 '' "$usage" --help leak.footprint
    in_shell 'help says how to use it' 0 "$usage"$'\n' '' 'plainly --help | grep -F -o -e "$1"' "$usage"
    in_shell 'help, standard input and error are closed' 0 "$usage"$'\n' '' 'plainly --help <&- 2>&- | grep -F -o -e "$1"' "$usage"
    in_shell 'help, the disk is full' 3 '' 'cannot write' 'plainly --help >/dev/full'
    in_shell 'help, standard output is closed' 3 '' 'closed' 'plainly --help >&-'
}

# What does not concern the answer is the same for all commands, and of one of them all is tried.
hears_no_environment() { # all or less
    local setting
    echo 'echo sourced; exit 0' >"$scratch/exits"
    mkdir -p "$scratch/a b"
    for setting in LC_ALL=C.UTF-8 IFS=0123456789 "CDPATH=$scratch:.." "BASH_ENV=$scratch/exits" SHELLOPTS=noclobber:noglob:xtrace:noexec \
        POSIXLY_CORRECT=1 'BASH_FUNC_cat%%=() { echo leaks 0; echo touching 0; echo formerly held back 0; }' 'BASH_FUNC_printf%%=() { :; }' GLOBIGNORE='*' "TMPDIR=$scratch/a b" QEMU_STRACE=1; do
        expect "$setting" "$done" "$whole" '' env "$setting" "${front[@]}" leak.footprint "${behind[@]}"
        [ "$1" = all ] || continue
        expect "$setting, refused" 2 "$cut" "$cut_words" env "$setting" "${front[@]}" cut.footprint "${behind[@]}"
        expect "$setting, no file" 3 '' 'there is no file' env "$setting" "${front[@]}" missing "${behind[@]}"
    done
    file=cut.footprint named=no root=. program=false more=3 decided=0 in_shell 'names of its own' "$done" "$whole" '' 'ask leak.footprint'
    POSIXLY_CORRECT=1 in_shell 'POSIXLY_CORRECT, standard input is closed' 3 '' 'standard input is closed' "ask $input <&-"
    expect 'no environment' "$done" "$whole" '' env -i PATH="$PATH" "${front[@]}" leak.footprint "${behind[@]}"
    [ -z "$(ls -A "$scratch/a b")" ] || case='TMPDIR' differs 'something is left there'
}

# ---- a stand-in

# In the tree. What answers does what a file says, so that it stays as it was built: it writes bytes, and goes on. rt's own run of it is left out.
stand_in() { # bytes, as for printf %b; what is done then
    printf '%b' "$1" >"$scratch/bytes"
    echo "${2-}" >"$scratch/then"
}
rt "links() { printf '#!/bin/bash -p\nPATH=%q; words=(\"\$@\"); . %q; cat %q; . %q\n' '$PATH' '$scratch/first' '$scratch/bytes' '$scratch/then' >\"out/\$1\"
    chmod +x \"out/\$1\"; }; runs() { :; }; checks"
python "draws() { words=(\"\$@\"); . $scratch/first; cat $scratch/bytes; . $scratch/then; }; acts \"\$@\""
# Before that it notes the words that it was called with.
echo "echo \"\${words[*]@Q}\" >$scratch/words" >"$scratch/first"
called_with() { # case, the words, quoted
    [ "$(<"$scratch/words")" = "$2" ] || case="$1" differs "called with $(<"$scratch/words")"
}

# Answers as the commands do: of leak.footprint with these bytes, and of most others as a file that was cut off. It hands on a read that fails.
answers() { # bytes, as for printf %b; status where it cannot
    stand_in ''
    printf '%b' "$1" >"$scratch/whole"
    cat >"$scratch/then" <<END
got="\$(set -o pipefail; head -c 65537 2>/dev/null | base64 -w 0)" || exit $2
ends="\${got//[^=]/}" length=\$((\${#got} / 4 * 3))
length=\$((length - \${#ends}))
if [ "\$got" = '$(base64 -w 0 leak.footprint)' ]; then
    cat $scratch/whole 2>/dev/null || exit $2
elif [ \$length -lt 12 ] || [ \$length -gt 65536 ]; then
    echo refused 11 at 0 2>/dev/null || exit $2
else
    echo refused 12 at 0 2>/dev/null || exit $2
fi
END
}

# Whole or not, by the status.
with_stand_in() { # bytes, status, words
    stand_in "$1"
    local printed=''
    [ "$2" = 3 ] || printed="$(printf '%b.' "$1")"
    asked_of "$1" "$2" "${printed%.}" "$3" leak.footprint
}

# Cut before every byte of it.
cut_anywhere() { # the whole answer
    local i
    for ((i = 0; i < ${#1}; i++)); do
        stand_in ''
        printf '%s' "${1:0:i}" >"$scratch/bytes"
        asked_of "cut to $i bytes" 3 '' "no $answer: " leak.footprint
    done
}

# Refusals, and what is none, from whatever answers.
refuses() { # all or less
    local refusal words bytes
    with_stand_in 'refused 13 at 72\n' 2 'refused 13: there are over 64 recordings, or'
    with_stand_in 'refused 8 at 0\n' 2 'refused 8: a number that has no words here'
    for bytes in '' '\n' '\0' 'refused 13 at 72' 'refused 13 at 72\n\n' 'refused 13 at 72\n\0' 'refused 013 at 72\n'; do
        with_stand_in "$bytes" 3 "no $answer: "
    done
    [ "$1" = all ] || return 0
    while IFS=$'\t' read -r refusal _ _ _ words; do
        [ "$refusal" = number ] || with_stand_in "refused $refusal at 72\n" 2 "refused $refusal: $words"
    done <../refusals.tsv
    with_stand_in 'refused 18446744073709551627 at 0\n' 2 'refused 18446744073709551627: a number that has no words here'
    for bytes in 'refused 13 at 72\njunk' 'refused 13 at 72\nrefused 13 at 72\n' 'refused 0 at 0\n' 'refused 13 at 072\n' 'refused 13\n' 'refused 13 at\n' 'refused 13 at \n' 'refused -1 at 0\n' \
        'refused 13 at -1\n' 'refused 13 at 72 \n' ' refused 13 at 72\n' 'refused  13 at 72\n' '\nrefused 13 at 72\n' 'refused 13 at 72\r\n' 'Refused 13 at 72\n'; do
        with_stand_in "$bytes" 3 "no $answer: "
    done
}

# Whatever answers fails, after it has written these bytes.
fails() { # bytes
    local bytes
    for bytes; do
        stand_in "$bytes" 'kill -KILL $$'
        asked_of 'whole, then a signal' 3 '' 'the program ended with status 137' leak.footprint
        stand_in "$bytes" 'exit 1'
        asked_of 'whole, then a status' 3 '' 'the program ended with status 1' leak.footprint
    done
}
