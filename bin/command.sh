# shellcheck shell=bash
# How a command begins, speaks and ends. It has set `name`, its own for messages, and `status`, with which it ends; it calls `begin`, and makes `scratch`.
# shellcheck disable=SC2034,SC2154 # the command's own

scratch=   # a directory for this run
signalled= # the signal that ends it
shown=     # the text that stands in place on the terminal

# Standard input and output are open from here on, so that no other file is opened as one of them; bash sees to standard error.
begin() {
    input=open # or closed
    trap end EXIT
    trap 'signalled=HUP; exit' HUP
    trap 'signalled=INT; exit' INT
    trap 'signalled=QUIT; exit' QUIT
    trap 'signalled=TERM; exit' TERM
    trap '' PIPE XFSZ # then a write fails, where nobody reads the pipe or a file may not grow
    { : 3<&0; } 2>/dev/null || { input=closed && exec </dev/null; }
    { : 3>&1; } 2>/dev/null || cannot 'standard output is closed'
}

at_end() { :; } # for what else is to be done

# Ends what was started, and then itself: with the status, or by the signal, from which a shell that runs commands in a loop sees that it is to end too.
end() {
    trap '' HUP INT QUIT TERM
    local job
    erase
    for job in $(jobs -pr); do
        stop "$job"
    done
    at_end
    [ -z "$scratch" ] || rm -rf -- "$scratch" || :
    if [ -n "$signalled" ]; then
        trap - EXIT "$signalled"
        kill -s "$signalled" "$$"
    fi
    exit "$status"
}

# Ends a job, with all of its process group if it has one of its own, and waits until they are gone.
stop() { # process
    local i
    kill -KILL -- "-$1" 2>/dev/null || kill -KILL "$1" 2>/dev/null || :
    wait "$1" 2>/dev/null || :
    for ((i = 0; i < 50; i++)); do
        kill -0 -- "-$1" 2>/dev/null || return 0
        sleep 0.1
    done
}

say() { # message
    erase
    printf '%s: %s\n' "$name" "$1" >&2 || :
}

cannot() { # message
    say "$1"
    exit 3
}

# Writes one line over the one before, cut to the terminal's width less what the terminal itself may put behind it, ^C.
in_place() { # text
    local width text
    width="$(stty size <&2 2>/dev/null)" || width=
    width="${width#* }"
    [ "${width:-0}" -gt 3 ] || width=80
    text="${1:0:width-3}"
    printf '\r%-*s' "${#shown}" "$text" >&2 || :
    shown="$text"
}

erase() {
    [ -z "$shown" ] || printf '\r%*s\r' $((${#shown} + 2)) '' >&2 || :
    shown=
}

# Runs a command that may take long: a signal does not have to wait for its end.
run() { # command
    "$@" <&0 &
    wait "$!"
}
