# shellcheck shell=bash
# What is proved, built and fresh: `find_program` finds a program and `find_library` the library that Python loads, or builds it with the kit's rt, and shows
# the progress. For a command that has command.sh, and `root`, the repository.
# shellcheck disable=SC2034,SC2154 # the command's own

# ---- what is built, and from what

declare -A needs=() # of each crate
crates=()           # the one that is built, and all that it needs
kind=               # program or library
parts=()            # what rt looks at in the crates, and what else the build rests on
made=()             # what it makes

describe() { # crate
    local line crate part i
    needs=() crates=("$1") parts=()
    while IFS= read -r line || [ -n "$line" ]; do
        line="${line%%#*}"
        read -r crate _ <<<"${line%%:*}" # behind the name of the library for C stands a word
        [[ $line != *:* || -z $crate ]] || needs[$crate]="${line#*:}"
    done 2>/dev/null <"$root/crates.txt" || return 1
    for ((i = 0; i < ${#crates[@]}; i++)); do
        for crate in ${needs[${crates[i]}]-}; do
            [ -z "${needs[$crate]+listed}" ] || [[ " ${crates[*]} " = *" $crate "* ]] || crates+=("$crate")
        done
        for part in src specs proofs stdin stdout args data; do
            [ ! -e "$root/crates/${crates[i]}/$part" ] || parts+=("crates/${crates[i]}/$part")
        done
    done
    case "$1" in
    meskelow)
        kind=library
        parts+=(python/meskelow.py)
        made=("target/staticlib/lib$1.a" "target/python/lib$1.so")
        ;;
    *)
        kind=program
        made=("target/bin/$1")
        ;;
    esac
}

# Prints the lines of these crates, and the digest of each of their files and of the files that are named. Times say nothing: a file may be restored with an
# old one.
contents() { # files
    local crate
    [ ${#parts[@]} -gt 0 ] || return 1
    for crate in "${crates[@]}"; do
        printf '%s:%s\n' "$crate" "${needs[$crate]-}"
    done
    cd "$root" && find "${parts[@]}" "$@" -type f -print0 | sort -z | xargs -0 sha256sum
}

# ---- what is fresh

# A build that went well leaves a record: kit, machine, and the contents of sources and of what was made. Where there is no rt to ask for its kit, that is not
# compared.
is_fresh() {
    local kit='' recorded='' now
    is_made && [ -f "$record" ] || return 1
    { IFS= read -r kit && IFS= read -r -d '' recorded; } <"$record" || : # there is no NUL to read to
    now="$(rt version 2>/dev/null)" || now="${kit#kit }"
    [ "$kit" = "kit $now" ] && now="$(contents "${made[@]}")" && [ "machine $machine"$'\n'"$now"$'\n' = "$recorded" ]
}

# All is there and can be used. Python takes a library for that of an archive only if both have the same time.
is_made() {
    local one
    for one in "${made[@]}"; do
        [ -f "$root/$one" ] || return 1
    done
    case "$kind" in
    program) [ -x "$root/${made[0]}" ] ;;
    library) [ ! "$root/${made[0]}" -nt "$root/${made[1]}" ] && [ ! "$root/${made[1]}" -nt "$root/${made[0]}" ] ;;
    esac
}

# Has what a crate makes built, unless it is fresh.
see_to() { # crate
    machine="$(uname -m)" || cannot 'cannot tell the kind of this machine'
    record="$root/target/built/$1"
    mark="$root/target/building" # the crate that is being built, since when, and the contents of its sources
    describe "$1" || cannot "cannot read $root/crates.txt"
    if ! is_fresh; then
        { exec 9<"$root/crates"; } 2>/dev/null || cannot "cannot read $root/crates"
        wait_for_lock
        describe "$1" || cannot "cannot read $root/crates.txt"
        is_fresh || build "$1" # else whoever had the lock has built it
        exec 9<&-
    fi
}

# Sets `program`, the words that run it.
find_program() { # program
    [ "$(uname -m)" = x86_64 ] || cannot 'the program is x86-64 code, which cannot run on this machine'
    see_to "$1"
    program=("$root/${made[0]}")
}

# The library that python/meskelow.py loads.
find_library() {
    [ "$(uname -m)" = x86_64 ] || cannot 'the library is x86-64 code, which Python cannot load on this machine'
    see_to meskelow
}

# ---- a build

building= # yes while rt runs

at_end() {
    [ -z "$building" ] || settle || :
}

# One build at a time. rt inherits the lock: if this script is killed, the next one waits for what is left of rt.
wait_for_lock() {
    ! locked || return 0
    say 'another build is running, and this one waits for it'
    until locked; do
        [ ! -t 2 ] || progress
        nap
    done
    erase
}

locked() {
    local ended=0
    flock -n 9 || ended=$?
    [ "$ended" -le 1 ] || cannot "cannot lock $root/crates"
    return "$ended"
}

# Half a second, or until rt has ended.
nap() {
    # shellcheck disable=SC2217 # it is to hold none of these
    sleep 0.5 9<&- </dev/null >/dev/null 2>&1 &
    wait -n || :
}

build() { # crate
    local kit before after making step='' steps=("bin/make $1") log="$root/target/log/$1" tool ended=0
    local written="cannot write below $root/target" changed='the sources were changed while they were proved: start again'
    local lacks="the $kind is not built, or was built from other sources, and"
    command -v rt >/dev/null || cannot "$lacks 'rt' of the Rattle kit is not on the path"
    if [ "$kind" = library ]; then
        steps+=('python3 -E -s -B python/meskelow.py build')
        for tool in python3 gcc; do
            command -v "$tool" >/dev/null || cannot "$lacks '$tool' is not on the path"
        done
    fi
    kit="$(rt version)" || cannot "'rt' of the Rattle kit cannot be run"
    say "proving and building the $kind, which takes minutes if it is new"
    building=yes
    settle || : # a build that was killed
    { describe "$1" && before="$(contents)"; } || cannot "cannot read the sources in $root/crates"
    # What rt has built it builds again only if that is not as it was, and bin/make lays only what is another in its place. The library that Python loads is made anew.
    [ "$kind" = program ] || (cd "$root" && rm -f "${made[@]}") || cannot "$written"
    { rm -f "$record" && mkdir -p "$root"/target/{built,log} && : >"$log" && printf '%s %(%s)T\n%s\n' "$1" -1 "$before" >"$mark"; } || cannot "$written"
    # What rt leaves in its temporary directory goes with that of this script.
    # shellcheck disable=SC2016 # a line for another shell
    (
        trap - PIPE XFSZ
        cd "$root" && TMPDIR="$scratch" exec setsid /bin/bash -pc 'for step; do echo "$step" >"$0" && $step || exit; done' "$scratch/step" "${steps[@]}"
    ) >"$log" 2>&1 </dev/null &
    making=$!
    while kill -0 "$making" 2>/dev/null; do
        progress
        nap
    done
    wait "$making" || ended=$?
    progress
    erase
    settle || cannot "$changed"
    building=
    if [ "$ended" -ne 0 ]; then
        cat "$log" >&2 || :
        { IFS= read -r step <"$scratch/step"; } 2>/dev/null || :
        cannot "the $kind is not built: '$step' failed"
    fi
    is_made || cannot "'${steps[*]: -1}' made no $root/${made[*]: -1}"
    { after="$(contents "${made[@]}")" && [[ $after = "$before"$'\n'* ]]; } || cannot "$changed"
    { printf '%s\n' "kit $kit" "machine $machine" "$after" >"$record.new" && mv "$record.new" "$record"; } || cannot "$written"
}

# Ends the build that the mark tells of. If a source was changed meanwhile and put back, rt may have stamped one state of it and built another: then no stamp is kept.
settle() {
    local built began before='' crate changed=1
    { read -r built began && IFS= read -r -d '' before; } 2>/dev/null <"$mark" || [ -n "$before" ] || return 0
    describe "$built" || return 1
    if [ -z "$(cd "$root" && find crates.txt "${parts[@]}" -newercm "$mark" -print -quit 2>&1)" ] &&
        [ "$(contents)"$'\n' = "$before" ]; then
        changed=0
    else
        for crate in "${crates[@]}"; do
            rm -f "$root/crates/$crate/out"/{rlib/stamp,"$crate.stamp"}
        done
    fi
    rm -f "$mark"
    return "$changed"
}

watched=               # the mark of the build whose progress is shown
declare -A finished=() # the crates that it has proved

# Shows how far the build is that the mark tells of: on a terminal in place, elsewhere by a line for each crate that is proved. rt says of a crate that was proved before
# nothing, and not how many are to come.
progress() {
    local built began now lines line last='' crate=''
    { read -r built began <"$mark" && [ -n "$began" ]; } 2>/dev/null || return 0
    if [ "$watched" != "$built $began" ]; then
        watched="$built $began" finished=()
    fi
    printf -v now '%(%s)T' -1
    { mapfile -t lines <"$root/target/log/$built"; } 2>/dev/null || return 0
    for line in ${lines[@]+"${lines[@]}"}; do
        case "$line" in
        'crate '*': modules '*) crate="${line#crate }" crate="${crate%%:*}" ;;
        'logic=proved '*)
            last="proved $crate"
            if [ -z "$crate" ] || [ -n "${finished[$crate]-}" ]; then continue; fi
            finished[$crate]=yes
            [ -t 2 ] || say "proved $crate ($((now - began)) s so far)"
            ;;
        esac
    done
    [ ! -t 2 ] || in_place "$name: ${last:-proving} ($((now - began)) s so far)"
}
