# shellcheck shell=bash
# The leak list of a footprint file, from the proved program crates/leaks.
# shellcheck disable=SC2034,SC2154 # for bin/answer.sh, and from there

answer=list
forms=(
    '[FILE]' 'the leak list of a footprint file, or of standard input'
    '-- FILE' 'the same, where the name of FILE begins with -'
    '--demo' 'the leak list of examples/night.footprint'
)
statuses=(
    0 'a whole list without leaks; strips may touch, or by edition 2 share a sliver'
    1 'a whole list with leaks'
)

ready() {
    find_program leaks
}

first_line="^leaks $number\$"
leak_line="^test $number train $number pairs [1-9][0-9]*\$"
closing_lines=("^touching $number\$" "^formerly held back $number\$") # behind the leak lines, a pattern each, in this order

judge() {
    local count i
    [[ ${lines[0]} =~ $first_line ]] || return 1
    # Compared as text, so that no count is too large.
    count=$((${#lines[@]} - 1 - ${#closing_lines[@]}))
    [ "${BASH_REMATCH[1]}" = "$count" ] || return 1
    for ((i = 1; i <= count; i++)); do
        [[ ${lines[i]} =~ $leak_line ]] || return 1
    done
    for ((i = 0; i < ${#closing_lines[@]}; i++)); do
        [[ ${lines[count + 1 + i]} =~ ${closing_lines[i]} ]] || return 1
    done
    [ "$count" -eq 0 ] || decided=1
}
