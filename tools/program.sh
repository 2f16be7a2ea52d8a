# shellcheck shell=sh disable=SC2034,SC2154
# What `mt` and `.ci/run` know of the programs: where each stands, and whether it is made of the sources as they are. Who
# reads this file has set `top`, the top of the repository, and calls `use_program` first.

# Takes up the program with this name: from here on the other functions speak of it.
use_program() {
    name_of_program=$1
    crate=$top/crates/$1
    program=$crate/out/$1
    # What else it is made of, beside its crates, and what builds it when they are built.
    further_sources=
    build_own=build_program
    # The time of this file is that at which the building of the program began. Its lines tell the file of the
    # command `rt` from another, and what `rt version` says.
    stamp=$crate/out/mt.built
}

# The crates that the program stands on, lowest first, and then its own.
crates() {
    awk -F: -v program="$name_of_program" '
        !/^#/ && NF > 1 { sub(/ .*/, "", $1); name[++count] = $1; below[$1] = $2 }
        END {
            split(below[program], list, " ")
            for (i in list) needed[list[i]] = 1
            for (i = 1; i <= count; i++) if (name[i] in needed) print name[i]
            print program
        }' "$top/crates.txt"
}

# Whether none of the program's files was changed or added since it was built, and none of their folders has lost one.
sources_are_same() (
    cd "$top" || exit 1
    # shellcheck disable=SC2086
    set -- crates.txt $further_sources
    for name in $(crates); do
        for folder in "crates/$name/src" "crates/$name/specs" "crates/$name/proofs"; do
            [ ! -d "$folder" ] || set -- "$@" "$folder"
        done
    done
    newer=$(find "$@" -newercm "$stamp" -print -quit) && [ -z "$newer" ]
)

tool_file() {
    stat -L -c '%n %d %i %s %Z' "$(command -v rt)"
}

# Writes the stamp with the time of the file $1.
write_stamp() {
    { tool_file && rt version; } >"$stamp.$$" && touch -r "$1" "$stamp.$$" && mv -f "$stamp.$$" "$stamp"
}

# Whether the toolchain is the one that built the program. Its version is asked only where its file is another.
toolchain_is_same() {
    command -v rt >/dev/null || return 0
    { read -r stamped_file && read -r stamped_version; } <"$stamp" || return 1
    [ "$stamped_file" = "$(tool_file)" ] || { [ "$stamped_version" = "$(rt version)" ] && write_stamp "$stamp"; }
}

is_fresh() {
    [ -s "$program" ] && [ -s "$stamp" ] && sources_are_same && toolchain_is_same
}

# Notes that the program is made of the sources as they were at the time of the file $1, which is taken away.
note_built() {
    write_stamp "$1" && rm -f "$1"
}
