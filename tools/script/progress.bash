# How far many runs are, on standard error: a bar on a terminal, and else a plain line each half minute and at the end.
# The first is there at the beginning; later ones have the rate, and the time that is left at that rate. tools/progress.py says the same for the tools in Python.
# shellcheck shell=bash

progress_name='' progress_count=0 progress_what='' progress_began=0 progress_said=0 progress_shown=''

# Milliseconds, in `now`; whole seconds where this bash has no finer clock.
read_clock() {
    if [ -n "${EPOCHREALTIME-}" ]; then
        now="${EPOCHREALTIME/[.,]/}"
        now="${now%???}"
    else
        now="$((SECONDS * 1000))"
    fi
}

# Begins: the name before plain lines, how many runs there are, and what they are of.
begin_progress() {
    progress_name="$1" progress_count="$2" progress_what="$3"
    read_clock
    progress_began="$now" progress_said="$now"
    show_progress 0 "$(progress_words 0)"
}

# A number of milliseconds in a few words.
lasting() {
    local seconds="$((($1 + 500) / 1000))"
    if [ "$seconds" -lt 60 ]; then
        printf '%d s' "$seconds"
    elif [ "$seconds" -lt 3600 ]; then
        printf '%d min %d s' "$((seconds / 60))" "$((seconds % 60))"
    else
        printf '%d h %d min' "$((seconds / 3600))" "$((seconds % 3600 / 60))"
    fi
}

# How many runs a second there were, by their number and the milliseconds that they took.
rate_of() {
    local tenths="$(($1 * 10000 / ($2 > 0 ? $2 : 1)))"
    if [ "$tenths" -ge 100 ]; then
        printf '%d a second' "$(((tenths + 5) / 10))"
    else
        printf '%d.%d a second' "$((tenths / 10))" "$((tenths % 10))"
    fi
}

# How far the runs are, by the number of those that have ended.
progress_words() {
    local passed="$((now - progress_began))"
    printf '%d of %d %s' "$1" "$progress_count" "$progress_what"
    if [ "$1" -eq "$progress_count" ]; then
        printf ' in %s, %s' "$(lasting "$passed")" "$(rate_of "$1" "$passed")"
    elif [ "$1" -gt 0 ]; then
        printf ', %s, %s left' "$(rate_of "$1" "$passed")" \
            "$(lasting "$((passed * (progress_count - $1) / $1))")"
    fi
}

# Says how many runs have ended.
progress_to() {
    local wait=30000
    [ "$progress_count" -gt 0 ] || return 0
    [ ! -t 2 ] || wait=100
    read_clock
    [ "$1" -eq "$progress_count" ] || [ "$((now - progress_said))" -ge "$wait" ] || return 0
    progress_said="$now"
    show_progress "$1" "$(progress_words "$1")"
}

# Draws the bar, or prints a plain line.
show_progress() {
    local full begun end='' bar
    [ "$progress_count" -gt 0 ] || return 0
    if [ ! -t 2 ]; then
        printf '%s: %s\n' "$progress_name" "$2" >&2
        return 0
    fi
    full="$((20 * $1 / progress_count))"
    bar='....................' progress_shown=1
    if [ "$1" -eq "$progress_count" ]; then
        end=$'\n' progress_shown=''
    fi
    begun="${bar:0:full}"
    printf '\r\033[K[%s%s] %s%s' "${begun//./#}" "${bar:full}" "$2" "$end" >&2
}

# Takes the bar away, so that something else can be printed.
clear_progress() {
    [ -n "$progress_shown" ] || return 0
    progress_shown=''
    printf '\r\033[K' >&2
}
