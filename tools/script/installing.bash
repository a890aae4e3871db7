# Links to this tree under a prefix, so that `scatter` is on the PATH with its manual page and completions.
# shellcheck shell=bash
# shellcheck disable=SC2154 # the names of scatter

# What is linked: the place under the prefix, and the file of this tree.
readonly LINKS=(
    'bin/scatter scatter'
    'share/man/man1/scatter.1 docs/scatter.1'
    'share/bash-completion/completions/scatter tools/completions/scatter'
    'share/zsh/site-functions/_scatter tools/completions/_scatter'
    'share/fish/vendor_completions.d/scatter.fish tools/completions/scatter.fish'
)

# The folder that was named, or else the one of a user.
find_prefix() {
    prefix="${1:-${HOME:?}/.local}"
    case "$prefix" in
        /*) ;;
        *) prefix="$PWD/$prefix" ;;
    esac
}

# Whether a place is a link into this tree.
is_ours() {
    [ -L "$1" ] && [ "$(readlink "$1")" = "$here/$2" ]
}

# Ends where something else stands at a place, so that nothing of others is replaced.
check_free() {
    local place file
    for link in "${LINKS[@]}"; do
        read -r place file <<<"$link"
        is_ours "$prefix/$place" "$file" || { [ ! -e "$prefix/$place" ] && [ ! -L "$prefix/$place" ]; } ||
            lacks "$prefix/$place is there already, and is no link to this tree; nothing was installed"
    done
}

install_links() {
    local place file link prefix
    find_prefix "$1"
    check_free
    for link in "${LINKS[@]}"; do
        read -r place file <<<"$link"
        { mkdir -p "$(dirname "$prefix/$place")" && ln -sfn "$here/$file" "$prefix/$place"; } 2>/dev/null ||
            lacks "$prefix/$place cannot be written"
        echo "$prefix/$place"
    done
    case ":$PATH:" in
        *":$prefix/bin:"*) ;;
        *) say "$prefix/bin is not on the PATH" ;;
    esac
    [ -x "$program" ] || say "the proved program is not built yet: ./scatter build does that, and until then the same code answers unproved"
    say "these are links, so this tree stays where it is; scatter uninstall ${1:+$prefix }takes them away"
    exit 0
}

uninstall_links() {
    local place file link prefix gone=0
    find_prefix "$1"
    for link in "${LINKS[@]}"; do
        read -r place file <<<"$link"
        is_ours "$prefix/$place" "$file" || continue
        rm -f "$prefix/$place" 2>/dev/null || lacks "$prefix/$place cannot be removed"
        echo "$prefix/$place"
        gone=$((gone + 1))
    done
    [ "$gone" -gt 0 ] || say "there is no link to this tree under $prefix"
    exit 0
}
