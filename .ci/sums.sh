# Checksums of what a result rests on, for the scripts beside this one, which run at the top of the repository.

# The checksum of these files, and of those in these folders.
sum_of() {
    find "$@" -type f -print0 2>/dev/null | LC_ALL=C sort -z | xargs -0 sha256sum | sha256sum | cut -c1-64
}

# The crates of the repository that the crate NAME stands on, NAME left out, lowest first.
below() {
    awk -F: -v want="$1" '
        /^#/ || NF < 2 { next }
        { split($1, word, " "); order[++count] = word[1]; named[word[1]] = $2 }
        END {
            found[want] = 1
            for (at = count; at > 0; at--) {
                if (!found[order[at]]) continue
                number = split(named[order[at]], deps, " ")
                for (i = 1; i <= number; i++) if (deps[i] in named) found[deps[i]] = 1
            }
            for (at = 1; at <= count; at++) if (found[order[at]] && order[at] != want) print order[at]
        }' crates.txt
}

# The checksum of the code and the definitions of the crate NAME, which plants are written from.
text_of() {
    sum_of "crates/$1/src" "crates/$1/specs"
}

# The checksum of what the edits of the crate NAME are tried over: the toolchain, the crate with its edits, and the
# code and definitions of the crates below.
tried_over() {
    local folders=() name
    for name in $(below "$1"); do
        folders+=("crates/$name"/{src,specs})
    done
    { rt version; grep -E "^$1[ :]" crates.txt; sum_of "crates/$1"/{src,specs,proofs,edits} "${folders[@]}"; } | sha256sum | cut -c1-64
}

# The checksum of all that the program is built from: the identity line of the toolchain, and the sources.
built_from() {
    { echo "$1"; find crates.txt HANDLES crates/*/{src,specs,proofs} -type f -print0 2>/dev/null | LC_ALL=C sort -z | xargs -0 sha256sum; } | sha256sum | cut -c1-64
}
