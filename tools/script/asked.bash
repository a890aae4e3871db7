# What ./scatter was asked: the file that it opens itself, and one line on what is wrong with arguments that it does not
# have. words.bash beside this file reads the table of words.
# shellcheck shell=bash
# shellcheck disable=SC2154 # the names of words.bash

# Whether behind the words of a word that reads a file there is one more, which is the file's name.
# A number is none where the word has a number that may be left out: it is one out of its range.
names_file() {
    local taken needed most
    [ "$#" -ge 2 ] && is_word "$1" && [ "${input["$1"]}" != - ] || return 1
    count_taken "$@"
    count_wanted "$1"
    [ "$#" -eq $((taken + 2)) ] && [ "$taken" -ge "$needed" ] || return 1
    [ "$needed" -eq "$most" ] || ! [[ "${*: -1}" =~ ^[0-9]+$ ]]
}

# Whether a word is an option, and no file's name.
is_option() {
    case "$1" in
        - | [!-]* | '') return 1 ;;
    esac
}

# Whether there is an option among some words.
has_option() {
    local word
    for word in "$@"; do
        ! is_option "$word" || return 0
    done
    return 1
}

# Whether a subcommand prints a report, which can be printed as JSON.
takes_json() {
    case "$1" in
        run | pool | make) ;;
        *) return 1 ;;
    esac
}

# Opens the file that the words name behind those of the subcommand, in place of standard input. The words that are left
# stand in `words_left`. Behind `--` a file's name may begin as an option does.
# shellcheck disable=SC2034 # which the script uses
take_file() {
    words_left=("$@")
    if [ "$#" -ge 3 ] && [ "${*: -2:1}" = -- ] && names_file "${@:1:$#-2}" "${*: -1}"; then
        words_left=("${@:1:$#-2}")
        case "${*: -1}" in
            -*) open_file "./${*: -1}" ;;
            *) open_file "${*: -1}" ;;
        esac
    elif names_file "$@" && ! is_option "${*: -1}"; then
        words_left=("${@:1:$#-1}")
        open_file "${*: -1}"
    fi
}

# Says which option there is not, of a subcommand.
say_no_option() {
    local word name="$1"
    shift
    for word in "$@"; do
        if is_option "$word" && [ "$word" != -- ]; then
            say "$name has no option $word"
            ! takes_json "$name" || say "its one option is --json, directly behind $name"
            [ ! -e "./$word" ] || say "the file of that name is ./$word"
            return 0
        fi
    done
    return 1
}

# The least of three numbers, in `least`.
least_of() {
    least="$1"
    [ "$least" -le "$2" ] || least="$2"
    [ "$least" -le "$3" ] || least="$3"
}

# How many letters are to be changed, added or left out between two words, in `apart_by`.
count_changes() {
    local one="$1" other="$2" least changes i j
    local -a before=() now=()
    for ((j = 0; j <= ${#other}; j++)); do before[j]="$j"; done
    for ((i = 1; i <= ${#one}; i++)); do
        now=("$i")
        for ((j = 1; j <= ${#other}; j++)); do
            changes=1
            [ "${one:i-1:1}" != "${other:j-1:1}" ] || changes=0
            least_of $((before[j] + 1)) $((now[j - 1] + 1)) $((before[j - 1] + changes))
            now[j]="$least"
        done
        before=("${now[@]}")
    done
    apart_by="${before[${#other}]}"
}

# The word of the table that is nearest to a text, in `near`; nothing where none is near.
find_near() {
    local word apart_by=0 best=3
    near=
    [ "${#1}" -le 20 ] || return 1
    for word in "${words[@]}"; do
        count_changes "$1" "$word"
        if [ "$apart_by" -lt "$best" ] && [ "$apart_by" -lt "${#word}" ]; then
            near="$word" best="$apart_by"
        fi
    done
    [ -n "$near" ]
}

# Says the first argument that is missed, of a word whose arguments are as many as it takes.
say_missed_range() {
    local name argument range
    local -a wanted
    name="$1"
    read -ra wanted <<<"${arguments["$1"]}"
    shift
    for argument in "${wanted[@]}"; do
        case "$argument" in
            *=*)
                range="$(range_of "$argument")"
                if ! is_within "$1" "$range"; then
                    say "$name: $(bare_name "$argument") is a number from ${range%%..*} to ${range##*..}, and not $1"
                    return 0
                fi
                ;;
        esac
        shift
    done
}

# Says in one line what is wrong with arguments that the script does not have.
say_what_is_wrong() {
    local near='' needed most
    if [ "$#" -eq 0 ]; then
        say "no subcommand was given"
    elif ! is_word "$1"; then
        if find_near "$1"; then
            say "there is no subcommand $1; one that is near is $near: $(call_of "$near")"
        else
            say "there is no subcommand $1"
        fi
    elif ! say_no_option "$@"; then
        count_wanted "$1"
        if [ "$(($# - 1))" -lt "$needed" ]; then
            say "$1 takes more arguments: $(call_of "$1")"
        elif [ "$(($# - 1))" -gt "$most" ]; then
            say "$1 takes fewer arguments: $(call_of "$1")"
        elif [ "$needed" -ne "$most" ]; then
            say "$1 does not take these arguments: $(call_of "$1")"
        else
            say_missed_range "$@"
        fi
    fi
}
