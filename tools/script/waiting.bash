# Commands that take minutes: each in a process group of its own, with a line on a terminal that says how long it has
# been going.
# shellcheck shell=bash

group='' ticker='' child=''

# Says each second how long this has been going, on a terminal alone, from some second on. `read` waits in place of
# `sleep`, so that no process is left behind.
tick() {
    local began="$SECONDS" never
    exec {never}<> <(:)
    while ! read -rt 1 -u "$never"; do
        [ "$((SECONDS - began))" -ge "${2:-1}" ] || continue
        printf '\r\033[Kscatter: %s, %d seconds so far' "$1" "$((SECONDS - began))" >&2
    done
}

# Takes that line away.
stop_ticking() {
    [ -n "$ticker" ] || return 0
    kill "$ticker" 2>/dev/null
    ticker=
    printf '\r\033[K' >&2
}

# Begins that line, where standard error is a terminal.
start_ticking() {
    [ -t 2 ] || return 0
    tick "$1" "${2:-1}" &
    ticker=$!
    # (no word of its end is wanted, and `wait` for it would last as long as the command where a signal comes)
    disown "$ticker"
}

# Runs a command in a process group of its own, which is ended with this script.
apart() {
    local status
    set -m
    "$@" &
    group=$!
    set +m
    wait "$group"
    status=$?
    group=
    return "$status"
}

# Runs a command on this script's own input, in its process group, so that it may read a terminal. It is ended with
# this script at once, which a command in the foreground is not.
beside() {
    local status
    "$@" <&0 &
    child=$!
    wait "$child" 2>/dev/null # (bash would report a signal)
    status=$?
    child=
    return "$status"
}

# Ends what still runs.
end_waiting() {
    stop_ticking
    [ -z "$child" ] || kill -TERM "$child" 2>/dev/null
    [ -z "$group" ] || kill -TERM -- "-$group" 2>/dev/null
}
