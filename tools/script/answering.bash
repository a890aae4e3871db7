# Answers by a program, and explains what it refused: its input is kept, or opened anew, so that the line that it names
# can be shown. What the program prints, and its status, stay as they are.
# shellcheck shell=bash
# shellcheck disable=SC2154 # the names of scatter and words.bash

readonly REFUSED=3 NO_READING=4 UNLAWFUL=9

# Opens the file that the words name, in place of standard input; `-` is standard input.
open_file() {
    [ "$1" != - ] || return 0
    [ -e "$1" ] || lacks "$1: there is no such file"
    [ ! -d "$1" ] || lacks "$1: it is a folder"
    { exec <"$1"; } 2>/dev/null || lacks "$1: it cannot be read"
}

# Whether standard input is a file that stands at its beginning, so that it can be opened anew.
is_whole_file() {
    local key value
    [ ! /dev/stdin -ef /dev/null ] || return 0
    [ -f /dev/stdin ] || return 1
    while read -r key value; do
        [ "$key" != pos: ] || [ "$value" -ne 0 ] || return 0
    done 2>/dev/null </proc/self/fdinfo/0
    return 1
}

# Runs a program beside this script, and explains what it refuses. Gives the program's status.
answer() {
    local status from=
    if [ "${input["$2"]}" = - ]; then
        answer_made "$@"
        status=$?
        [ "$status" -ne "$NO_WRITING" ] || not_written
        return "$status"
    fi
    [ ! -t 0 ] || say "reading standard input, until ctrl and D"
    if is_whole_file; then
        from=/dev/stdin
        [ -t 1 ] || start_ticking "running" 2 # (what is printed on a terminal would stand behind that line)
        beside "$@"
        status=$?
        stop_ticking
    elif [ -p /dev/stdin ] && work="$(mktemp -d 2>/dev/null)"; then
        from="$work/input"
        beside "$@" < <(exec tee "$from" 2>/dev/null)
        status=$?
    else
        beside "$@"
        status=$?
    fi
    case "$status" in
        "$REFUSED" | "$UNLAWFUL") [ -z "$from" ] || explain "$from" "$status" "$@" ;;
        "$NO_WRITING") not_written ;;
        "$NO_READING") say "reading failed: standard input cannot be read to its end" ;;
    esac
    return "$status"
}

# Runs a program that reads nothing. On a terminal it says how long that has been going, and what the program prints
# comes at its end.
answer_made() {
    local status said
    if [ ! -t 2 ]; then
        beside "$@"
        return
    fi
    work="$(mktemp -d 2>/dev/null)" || { beside "$@"; return; }
    start_ticking "running" 2
    beside "$@" >"$work/output"
    status=$?
    stop_ticking
    said="$(cat "$work/output" && echo .)"
    { printf '%s' "${said%.}" 2>/dev/null; } || return "$NO_WRITING"
    return "$status"
}

# Explains on standard error what a program refused, or which row of a journal it does not take. The program is asked
# once more, since what it printed went its own way.
explain() {
    local from="$1" status="$2" said
    shift 2
    said="$("$@" <"$from" 2>/dev/null)"
    if [ "$status" -eq "$REFUSED" ]; then
        "$here/tools/script/refusal" "$said" <"$from" >&2
    else
        "$here/tools/unlawful" --by "$1" --said "$said" - <"$from" >&2
    fi
}
