# shellcheck shell=bash
# A picture of a footprint file, drawn by python/draw.py with the proved library.
# shellcheck disable=SC2034,SC2154 # for bin/answer.sh, and from there

answer=picture
forms=(
    '[FILE]' 'a picture of a footprint file, or of standard input, in SVG'
    '-- FILE' 'the same, where the name of FILE begins with -'
    '--demo' 'a picture of examples/night.footprint'
)
statuses=(
    0 'the whole picture, also of a file with leaks'
)

ready() {
    command -v python3 >/dev/null || cannot "'python3', which draws the picture, is not on the path"
    find_library
    program=(python3 -E -s -B "$root/python/draw.py")
    [ "$named" = no ] || program+=("${file##*/}") # the title
}

# It ends where its outermost element does, and has no other of that kind.
judge() {
    local i last=$((${#lines[@]} - 1))
    [[ ${lines[0]} = '<svg '* || ${lines[0]} = '<?xml '* ]] && [[ ${lines[last]} = *'</svg>' && ${lines[last]} != *'</svg>'*'</svg>' ]] || return 1
    for ((i = 0; i < last; i++)); do
        [[ ${lines[i]} != *'</svg>'* ]] || return 1
    done
}
