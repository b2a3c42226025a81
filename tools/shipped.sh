# What the launcher, tools/prove and the gate have in common, for a shell that reads this file: which crates the programs are
# made of, the sum of their sources, and what release/ says of the programs that are shipped. $root is the top of the
# repository, and $program_name the crate of the program that is spoken of: roolvist, or roolvist_explain.

case ${program_name:=roolvist} in
    roolvist)
        packed=$root/release/roolvist-x86_64-linux.gz
        sum_word=program
        ;;
    *)
        packed=$root/release/roolvist-explain-x86_64-linux.gz
        sum_word=explain
        ;;
esac
sums=$root/release/sums

# The crates that the programs are made of, themselves among them, in the order of crates.txt: their lines there, or with $1 =
# names their names.
program_crates() (
    set -f
    IFS='
'
    lines=$(cat "$root/crates.txt")
    for line in $lines; do
        # A comment has no name.
        name=${line%%[!a-z0-9_]*}
        [ -z "$name" ] || eval "below_$name=\${line#*:}"
    done
    IFS=' '
    seen=' '
    visit() {
        case $seen in
            *" $1 "*) return ;;
        esac
        seen="$seen$1 "
        eval "below=\${below_$1-}"
        for name in $below; do
            visit "$name"
        done
    }
    visit roolvist
    visit roolvist_explain
    IFS='
'
    for line in $lines; do
        name=${line%%[!a-z0-9_]*}
        case $seen in
            *" $name "*) [ "${1-}" = names ] && echo "$name" || printf '%s\n' "$line" ;;
        esac
    done
)

# The folders with their sources, as paths in $root, of which none has a blank.
source_folders() {
    for name in $(program_crates names); do
        for part in src specs proofs; do
            [ ! -d "$root/crates/$name/$part" ] || echo "crates/$name/$part"
        done
    done
}

# The sum of the sources: sha256 of the lines of crates.txt and, for each file, in the byte order of their paths, a line of
# its own sha256 and its path. Files whose names begin with a dot, as editors write them, are no sources.
sources_sum() (
    cd "$root" || exit 1
    # shellcheck disable=SC2046
    {
        program_crates
        find $(source_folders) -type f ! -name '.*' -exec sha256sum {} + | LC_ALL=C sort -k 2
    } | sum_of
)

# The sha256 of a file, or of standard input.
sum_of() {
    sha256sum "$@" | {
        read -r sum _
        echo "${sum#\\}"
    }
}

# What release/sums says under a word: `version`, `program`, `explain`, `sources` or `toolchain`.
said_of() {
    while read -r word rest; do
        [ "$word" != "$1" ] || echo "$rest"
    done <"$sums"
}

# In which way release/ isn't the program $1, which was built here: nothing, or the first of `release` (there is none),
# `toolchain`, `sources` and `program`.
shipped_differs() {
    if ! [ -r "$packed" ] || ! [ -r "$sums" ]; then
        echo release
    elif [ "$(said_of toolchain)" != "$(rt version)" ]; then
        echo toolchain
    elif [ "$(said_of sources)" != "$(sources_sum)" ]; then
        echo sources
    elif ! gzip -dc "$packed" | cmp -s - "$1" || [ "$(said_of "$sum_word")" != "$(sum_of "$1")" ]; then
        echo program
    fi
}
