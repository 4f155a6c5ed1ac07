# shellcheck shell=bash
# A recording of a footprint file as well-known text, from the proved program crates/wkt.
# shellcheck disable=SC2034,SC2154 # for bin/answer.sh, and from there

answer=text
forms=(
    'FILE ID' 'the recording with this id of a footprint file, as well-known text'
    '-- FILE ID' 'the same, where the name of FILE begins with -'
    '--demo' 'recording 240917001 of examples/night.footprint'
)
statuses=(
    0 'the whole text'
)
refusal='the file is refused, or has no such recording'
more=1
demo=(240917001)

# An id is written as lists have it.
fits() {
    [[ ${words[0]} =~ ^$number$ ]] && { [ ${#words[0]} -lt 10 ] || { [ ${#words[0]} -eq 10 ] && [ "${words[0]}" -le 4294967295 ]; }; }
}

ready() {
    find_program wkt
    program+=("${words[0]}")
}

# One line, which may have a quarter of a million bytes: more than bash matches in good time.
judge() {
    local metres='(-?[1-9][0-9]*\.[0-9]{2}|0\.[0-9]{2}|-0\.(0[1-9]|[1-9][0-9]))'
    local point="$metres $metres"
    local polygon="POLYGON \(\($point, $point, $point, $point\)\)"
    [ ${#lines[@]} -eq 1 ] && grep -E -x -q -e "GEOMETRYCOLLECTION \($polygon(, $polygon)*\)" "$scratch/answer"
}
