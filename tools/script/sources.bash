# The sources of the program, by whose checksum what is built of them is named.
# shellcheck shell=bash
# shellcheck disable=SC2154 # here, the top of the tree

# The checksum of all that the program is built from.
sum_of_sources() {
    (cd "$here" && find crates.txt HANDLES crates -name out -prune -o -type f \
        \( -name '*.rt' -o -name '*.antt' -o -name crates.txt -o -name HANDLES \) -print0 |
        LC_ALL=C sort -z | xargs -0 sha256sum | sha256sum | cut -c 1-32)
}
