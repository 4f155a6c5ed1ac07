# shellcheck shell=bash
# What the tests of the commands share: cases, and a tree with stand-ins for the kit's rt, for the proved programs and for Python. A test sets `bin`, where the
# commands are.
# shellcheck disable=SC2016,SC2034,SC2154 # lines for another shell; what the test uses and sets
set -euo pipefail
unset CDPATH BASH_ENV MESKELOW_CALLED

scratch="$(readlink -f "$(mktemp -d)")"
trap 'rm -rf "$scratch"' EXIT
export TMPDIR="$scratch/temporary"
mkdir "$TMPDIR"

tried=0 wrong=0

differs() { # what
    echo "$subject, $case: $1" >&2
    wrong=$((wrong + 1))
}

# Runs a command. Its status and its standard output are as said, its standard error has the words, and nothing temporary is
# left. No words: its standard error is empty.
expect() { # case, status, standard output, words, command
    local case="$1" status="$2" output="$3" words="$4" ended=0 printed said
    shift 4
    "$@" >"$scratch/output" 2>"$scratch/error" || ended=$?
    tried=$((tried + 1))
    [ "$ended" = "$status" ] || differs "status $ended in place of $status"
    # It is read up to a NUL, which no command prints.
    if IFS= read -r -d '' printed <"$scratch/output" || [ "$printed" != "$output" ]; then
        differs "printed $(head -c 300 "$scratch/output" | cat -A)"
    fi
    IFS= read -r -d '' said <"$scratch/error" || :
    if [ -n "$words" ]; then
        [[ $said = *"$words"* ]] || differs "said $(head -c 300 "$scratch/error" | cat -A)"
    else
        [ ! -s "$scratch/error" ] || differs "said $(head -c 300 "$scratch/error" | cat -A)"
    fi
    ! compgen -G "$TMPDIR/*" >/dev/null || differs "left $(ls -A "$TMPDIR")"
}

# Ends a test.
report() { # of what
    echo "$1: $tried cases tried, $wrong differences"
    [ "$wrong" = 0 ]
}

# ---- the command that is tried

subject=  # its name, for what is said of it
front=()  # the words that call it
behind=() # and those that stand behind the name of a file

try() { # name, words that call it, and if any stand behind a file, -- and those
    subject="$1" front=()
    shift
    while [ $# -gt 0 ] && [ "$1" != -- ]; do
        front+=("$1")
        shift
    done
    behind=("${@:2}")
}

# Runs it with these words alone.
asked() { # case, status, standard output, words, words for it
    expect "$1" "$2" "$3" "$4" "${front[@]}" "${@:5}"
}

# Runs it with the name of a file.
asked_of() { # case, status, standard output, words, a name, which may have -- before it
    expect "$1" "$2" "$3" "$4" "${front[@]}" "${@:5}" "${behind[@]}"
}

# Runs a line for the shell, in which `ask` is the command with what stands behind a file, and `plainly` the command alone.
in_shell() { # case, status, standard output, words, line, words for it
    expect "$1" "$2" "$3" "$4" bash -c "plainly() { ${front[*]@Q} \"\$@\"; }; ask() { plainly \"\$@\" ${behind[*]@Q}; }; $5" bash "${@:6}"
}

# Waits until a file has a line with a pattern, and ends the shell if it never has.
await() { # pattern, file
    for _ in {1..200}; do
        ! grep -q -e "$1" "$2" 2>/dev/null || return 0
        sleep 0.05
    done
    echo "no $1 in $2"
    exit 99
}
export -f await

# ---- the tree

# Crates of two programs and of the library, with one that none of them needs, and a path with an rt and a Python of its own. A source is a number.
tree="$scratch/tree"
mkdir -p "$tree"/{tools,python,examples} "$tree"/crates/{floats,lines,leaks,wkt,meskelow,other}/{src,specs,must-fail}
cp -r "$bin" "$tree/bin"
cp "$bin/../refusals.tsv" "$tree"
cp "$bin/../examples/night.footprint" "$tree/examples"
printf '%s\n' '# The crates.' 'floats:' 'lines: floats' 'leaks: lines floats' 'wkt: lines floats' 'meskelow staticlib: lines floats' 'other: floats' >"$tree/crates.txt"
for source in crates/{floats,lines,meskelow,other}/src/lib.rt crates/{leaks,wkt}/src/main.rt python/{meskelow,draw}.py; do
    echo 1 >"$tree/$source"
done
for tool in cat chmod cmp cp dirname find flock grep mkdir mktemp mv readlink rm setsid sha256sum sleep sort stty xargs; do
    ln -s "$(command -v "$tool")" "$tree/tools/$tool"
done
# By -p a stand-in hears as little of the environment as a program does.
tool() { # name, what it does
    printf '#!/bin/bash -p\nPATH=%q\n%s\n' "$PATH" "$2" >"$tree/tools/$1"
    chmod +x "$tree/tools/$1"
}
tool uname 'echo x86_64'
tool gcc 'exit 9'
echo 'a kit' >"$scratch/kit"
# rt notes its calls and all that it can read. Then it does what is said, by default what rt does: a crate is proved if it has changed, or what it needs, and it says
# nothing of one that has not. It goes by what it reads before it begins, and stamps a program only if that is so still. A library is a copy of its source, and an
# archive has its own number and those of the other two. A program prints a list whose one leak line has the numbers of all three, and rt runs it.
cat >"$scratch/as_rt" <<'END'
sources() { # crates
    local crate
    for crate; do cat "$tree/crates/$crate"/{src,specs}/* 2>/dev/null; done
}
proves() { # crate, and what it needs
    local out="$tree/crates/$1/out" now
    mkdir -p "$out/rlib"
    now="$(sources "$@")"
    if [ "$now" = "$(cat "$out/rlib/stamp" 2>/dev/null)" ]; then return; fi
    rm -f "$out/rlib/stamp"
    during "$1"
    [ -e "$tree/crates/$1/src/main.rt" ] || cp "$tree/crates/$1/src/lib.rt" "$out/rlib/made"
    echo "fn $1::f: proved"
    echo "crate $1: modules loaded=9 checked=1"
    echo 'logic=proved functions=1'
    [ "$now" != "$(sources "$@")" ] || echo "$now" >"$out/rlib/stamp"
}
during() { :; } # crate
made_of() { # crate
    cat "$tree/crates/$1/out/rlib/made"
}
links() { # program
    printf '#!/bin/bash -p\necho leaks 1; echo "test %s train %s pairs %s"; echo touching 0; echo formerly held back 0\n' \
        "$(<"$tree/crates/$1/src/main.rt")" "$(made_of floats)" "$(made_of lines)" >"out/$1"
    chmod +x "out/$1"
}
stamped() { # program
    sources "$1" lines floats
    sha256sum "out/$1"
}
programs() { # program
    local now
    if [ "$(stamped "$1")" != "$(cat "out/$1.stamp" 2>/dev/null)" ]; then
        rm -f "out/$1.stamp"
        now="$(sources "$1" lines floats)"
        proves "$1" lines floats
        links "$1"
        [ "$now" != "$(sources "$1" lines floats)" ] || stamped "$1" >"out/$1.stamp"
    fi
    echo "rt: running out/$1"
    runs "$1"
}
runs() { # program
    "out/$1" >&3
}
archives() { # library
    proves "$1" lines floats
    { cat "src/lib.rt" && made_of floats && made_of lines; } >"out/lib$1.a"
}
checks() {
    proves floats
    proves lines floats
    case "$asked" in
    'leaks run' | 'wkt run') programs "${asked% *}" ;;
    'meskelow lib') archives "${asked% *}" ;;
    *) exit 2 ;;
    esac
}
END
declare -f await >>"$scratch/as_rt"
rt() { # what it does, over what as_rt has
    tool rt "case \"\$1\" in version) read -r kit <$scratch/kit; echo \"\$kit\"; exit ;; esac
        exec 3>&1 1>&2; tree=$tree; asked=\"\${PWD##*/} \$*\"; echo \"\$PWD \$*\" >>$scratch/calls; cat >>$scratch/calls; echo some output; . $scratch/as_rt; $1"
}
# Python's library is the archive, with its time, and a picture has the same three numbers.
cat >"$scratch/as_python" <<'END'
builds() {
    mkdir -p target/python
    cp -p target/staticlib/libmeskelow.a target/python/libmeskelow.so
}
draws() { # title
    mapfile -t numbers <"$tree/target/python/libmeskelow.so"
    echo "<svg test=\"${numbers[0]}\" train=\"${numbers[1]}\" pairs=\"${numbers[2]}\"></svg>"
}
acts() {
    case "$*" in
    '-E -s -B python/meskelow.py build') builds ;;
    "-E -s -B $scratch/"*/python/draw.py*) tree="${4%/*/*}" && draws "${@:5}" ;;
    *) exit 9 ;;
    esac
}
END
python() { # what it does, over what as_python has
    tool python3 "scratch=$scratch; . $scratch/as_python; $1"
}
python 'acts "$@"'
in_tree() { # command
    env PATH="$tree/tools" "$@"
}
