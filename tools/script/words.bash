# The subcommands of ./scatter, as words.txt beside this file has them (its "words"): what `scatter` and `pages` share.
# shellcheck shell=bash
# shellcheck disable=SC2034 # those who read this file use its names

declare -a words=() statuses=() files=()
declare -A arguments=() by=() input=() does=() status_by=() status_when=() file_is=()
version='' kit=''

# The text without blanks at its ends, in `trimmed`.
trim() {
    trimmed="${1#"${1%%[! ]*}"}"
    trimmed="${trimmed%"${trimmed##*[! ]}"}"
}

# Keeps one whole line of the table.
keep_line() {
    local kind name rest
    local -a fields=()
    rest="$1 | "
    while [ -n "$rest" ]; do
        trim "${rest%% | *}"
        fields+=("$trimmed")
        rest="${rest#* | }"
    done
    read -r kind name rest <<<"${fields[0]}"
    case "$kind" in
        version) version="${fields[1]}" ;;
        kit) kit="${fields[1]}" ;;
        word)
            words+=("$name")
            arguments["$name"]="$rest" by["$name"]="${fields[1]}"
            input["$name"]="${fields[2]}" does["$name"]="${fields[3]}"
            ;;
        status)
            statuses+=("$name")
            status_by["$name"]="${fields[1]}" status_when["$name"]="${fields[2]}"
            ;;
        file)
            files+=("$name")
            file_is["$name"]="${fields[1]}"
            ;;
        *) return 1 ;;
    esac
}

# Reads the table. A line that begins with blanks goes on with the one before.
read_words() {
    local line whole=
    while IFS= read -r line || [ -n "$line" ]; do
        case "$line" in
            '' | '#'*) continue ;;
            ' '*)
                trim "$line"
                whole+=" $trimmed"
                ;;
            *)
                [ -z "$whole" ] || keep_line "$whole" || return 1
                whole="$line"
                ;;
        esac
    done <"$1"
    keep_line "$whole"
}

# An argument's name: `N` of `N=1..1000`, and `[N]` of `[N=1..1000]`.
name_of() {
    case "$1" in
        '['*=*) printf '%s]' "${1%%=*}" ;;
        *) printf '%s' "${1%%=*}" ;;
    esac
}

# The same without brackets.
bare_name() {
    local name
    name="$(name_of "$1")"
    name="${name#[}"
    printf '%s' "${name%]}"
}

# An argument's range: `1..1000` of `N=1..1000` and of `[N=1..1000]`; nothing where it is no number.
range_of() {
    local range="${1%]}"
    case "$range" in
        *=*) printf '%s' "${range#*=}" ;;
    esac
}

# A word with the names of its arguments.
word_line() {
    local argument line="$1"
    local -a wanted
    read -ra wanted <<<"${arguments["$1"]}"
    for argument in "${wanted[@]}"; do
        line+=" $(name_of "$argument")"
    done
    printf '%s' "$line"
}

# The usage line of the proved program.
usage_line() {
    local word line=
    for word in "${words[@]}"; do
        [ "${by["$word"]}" = program ] || continue
        line+="${line:+ | }scatter $(word_line "$word")"
    done
    printf 'usage: %s\n' "$line"
}

# Whether the table has a word.
is_word() {
    local word
    for word in "${words[@]}"; do
        [ "$word" != "$1" ] || return 0
    done
    return 1
}

# Whether a text spells a number without a sign or a leading zero, within `LOW..HIGH`.
is_within() {
    local LC_ALL=C low="${2%%..*}" high="${2##*..}"
    [[ "$1" =~ ^(0|[1-9][0-9]*)$ ]] && ! is_less "$1" "$low" && ! is_less "$high" "$1"
}

# Whether one number is less than another, however large they are.
is_less() {
    [ "${#1}" -lt "${#2}" ] || { [ "${#1}" -eq "${#2}" ] && [[ "$1" < "$2" ]]; }
}

# Whether a word is what an argument that may be left out takes: a number in its range, or the name itself.
fits_option() {
    local inner="${2#[}"
    inner="${inner%]}"
    case "$inner" in
        *=*) is_within "$1" "${inner#*=}" ;;
        *) [ "$1" = "$inner" ] ;;
    esac
}

# How many of the words behind the first its arguments take, in `taken`: one each, but that those that may be left out
# take only what is theirs.
count_taken() {
    local argument
    local -a wanted
    read -ra wanted <<<"${arguments["$1"]}"
    shift
    taken=0
    for argument in "${wanted[@]}"; do
        [ "$#" -ge 1 ] || return 0
        case "$argument" in
            '['*) fits_option "$1" "$argument" || continue ;;
        esac
        taken=$((taken + 1))
        shift
    done
}

# How many arguments a subcommand must have, in `needed`, and how many it may have, in `most`.
count_wanted() {
    local argument
    local -a wanted
    read -ra wanted <<<"${arguments["$1"]}"
    needed=0 most="${#wanted[@]}"
    for argument in "${wanted[@]}"; do
        case "$argument" in
            '['*) ;;
            *) needed=$((needed + 1)) ;;
        esac
    done
}

# Whether the first word is one of the program's, and the others are as many as it takes, and numbers in their ranges
# where it takes numbers.
asks_program() {
    [ "$#" -ge 1 ] && is_word "$1" && [ "${by["$1"]}" = program ] && has_arguments "$@"
}

# Whether the words behind the first, which the table has, are as many as it takes, and numbers in their ranges where it
# takes numbers.
has_arguments() {
    local argument taken needed most
    local -a wanted
    count_taken "$@"
    count_wanted "$1"
    [ "$#" -eq $((taken + 1)) ] && [ "$taken" -ge "$needed" ] || return 1
    read -ra wanted <<<"${arguments["$1"]}"
    shift
    for argument in "${wanted[@]}"; do
        case "$argument" in
            '['*) continue ;; # what is there was found to be its own
            *=*) is_within "$1" "${argument#*=}" || return 1 ;;
        esac
        shift
    done
}

# Prints a text in lines of at most 80 columns: the first after a mark, and all after the given number of blanks.
wrapped() {
    local mark="$1" blanks="$2" word line begun=
    local -a parts
    read -rd '' -a parts <<<"$3"
    printf -v line "%-${blanks}s" "$mark"
    if [ -n "$mark" ] && [ "${#mark}" -ge "$blanks" ]; then
        printf '%s\n' "$mark"
        printf -v line "%${blanks}s" ''
    fi
    for word in "${parts[@]}"; do
        if [ -n "$begun" ] && [ $((${#line} + 1 + ${#word})) -gt 80 ]; then
            printf '%s\n' "$line"
            printf -v line "%${blanks}s" ''
            begun=
        fi
        line+="${begun:+ }$word"
        begun=1
    done
    printf '%s\n' "$line"
}

# How a word is called, with its input.
call_of() {
    local from=
    [ "${input["$1"]}" = - ] || from=' < FILE'
    printf './scatter %s%s' "$(word_line "$1")" "$from"
}

statuses_of() {
    local status
    for status in "${statuses[@]}"; do
        [ "${status_by["$status"]}" != "$1" ] ||
            wrapped "  $status" 7 "${status_when["$status"]}"
    done
}

help_page() {
    local word file
    wrapped '' 0 'scatter runs a scenario of a key-value store of self-organising Paxos groups, and says whether a history of any store is linearizable.'
    echo
    for word in "${words[@]}"; do
        wrapped "  $(call_of "$word")" 29 "${does["$word"]}"
    done
    wrapped '  ./scatter --version' 29 'prints which version this is, and whether it is built'
    wrapped '' 0 'Other arguments are answered by the usage line and status 2.'
    wrapped '' 0 'In place of < FILE its name alone may stand there. What is refused is explained on standard error.'
    echo
    wrapped '' 0 "Until it is built, a run is of the same code unproved, and says so on standard error:
        the first compiles it in two to five minutes, and it is kept. The first report to look at is
        \`./scatter run < scenarios/lost_answer.scatter\`; then there are \`./scatter demo\` and
        \`./scatter edit\`, and the page docs/FIRST_HOUR.md."
    echo
    echo 'Statuses of the program'
    statuses_of program
    echo 'Statuses of this script'
    statuses_of script
    echo 'Files'
    for file in "${files[@]}"; do
        wrapped "  $file" 29 "${file_is["$file"]}"
    done
}

# What one word does.
help_word() {
    local argument range
    local -a wanted
    read -ra wanted <<<"${arguments["$1"]}"
    call_of "$1"
    echo
    wrapped '' 2 "${does["$1"]}"
    for argument in "${wanted[@]}"; do
        range="$(range_of "$argument")"
        [ -z "$range" ] ||
            wrapped '' 2 "$(bare_name "$argument") is a number from ${range%%..*} to ${range##*..}"
    done
    [ "${input["$1"]}" = - ] || wrapped '' 2 "FILE has at most ${input["$1"]} bytes; it may stand there without <"
    if [ "${by["$1"]}" = program ]; then
        wrapped '' 2 "until the program is built, the same code runs unproved, compiled once in two to five minutes"
    fi
    echo "./scatter help has the other subcommands and the statuses."
}
