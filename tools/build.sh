# shellcheck shell=sh disable=SC2154
# How the script `mt` proves and builds the program that `use_program` of program.sh took up, and what it says meanwhile.

# The last first run that was measured, with nothing kept: minutes on four processors, and processor minutes.
measured_minutes=18
measured_processor_minutes=37
log=

say() {
    printf '%s\n' "$1" >&2
}

# How many searches for proofs run side by side: one a processor, and one for each 2.5 GB of free memory.
jobs() {
    awk -v processors="$(nproc)" '
        /^MemAvailable:/ { fit = int($2 / 2500000) }
        END { if (fit > processors) fit = processors; print fit < 1 ? 1 : fit }' /proc/meminfo
}

# How many minutes a first run takes at least with so many jobs: as many as on four, or its processor minutes shared out.
estimate() {
    shared=$(((measured_processor_minutes + $1 - 1) / $1))
    if [ "$shared" -gt "$measured_minutes" ]; then echo "$shared"; else echo "$measured_minutes"; fi
}

# A crate's line begins as its proof begins, and goes on when it ends. On a terminal the next line takes its place.
begin_line() {
    if [ -t 2 ]; then printf '\r\033[K%s' "$1" >&2; else printf '%s' "$1" >&2; fi
}

end_line() {
    if [ -t 2 ]; then printf '%s' "$1" >&2; else printf '%s\n' "$1" >&2; fi
}

# What became of the crate that the log speaks of, after so many seconds. If nothing is proved anew, the log has no last
# line of a proof.
outcome() {
    if ! grep -q '^logic=' "$log"; then
        echo 'kept'
    elif grep -q ': begins with what a check kept in ' "$log"; then
        echo "proved over what was kept, $1 s"
    else
        echo "proved, $1 s"
    fi
}

# Proves and builds the program with $1 jobs. rt builds it by running it; without words it ends with 2.
build_program() {
    rt run "$name_of_program" --jobs "$1" >/dev/null
    [ $? = 2 ] && [ -x "$program" ]
}

# Proves and builds one crate with so many jobs.
build_crate() (
    cd "$top/crates/$1" || exit 1
    if [ "$1" = "$name_of_program" ]; then
        "$build_own" "$2" >"$log" 2>&1 </dev/null
    else
        rt lib "$1" --jobs "$2" >"$log" 2>&1 </dev/null
    fi
)

# How far the building is: crates proved, of all, after so many seconds; and the crate that comes next.
progress() {
    echo "mt: $1 of $2 crates after $(($3 / 60)) min $(($3 % 60)) s; now $4: "
}

build() {
    names=$(crates) && log=$(mktemp) && began=$(mktemp) || return 1
    trap 'rm -f "$log" "$began"' EXIT
    of=$(printf '%s\n' "$names" | wc -l)
    side=$(jobs)
    say "mt: first proves and builds $name_of_program: $of crates, $side jobs; some $(estimate "$side") minutes if nothing is kept"
    number=0 kept=0 start=$(date +%s)
    for crate_name in $names; do
        since=$(date +%s)
        begin_line "$(progress "$number" "$of" $((since - start)) "$crate_name")"
        if ! build_crate "$crate_name" "$side"; then
            end_line 'failed'
            [ -t 2 ] && say ''
            cat "$log" >&2
            say "mt: $name_of_program could not be built"
            return 1
        fi
        number=$((number + 1))
        became=$(outcome $(($(date +%s) - since)))
        [ "$became" != kept ] || kept=$((kept + 1))
        end_line "$became"
    done
    [ -t 2 ] && say ''
    say "mt: $name_of_program is built; $kept crates were kept, $((number - kept)) proved, $(($(date +%s) - start)) s"
    note_built "$began" && rm -f "$log" && trap - EXIT
}

# Compiles and runs the program by `rt try`, in a folder of its own: its status is the program's if its last lines say
# that it ended. `mt_desk` gets its file, the last of its words, with the whole path.
try_program() {
    say 'mt: --unproved: nothing is proved of this run; the program is compiled anew, and stops when a check in it fails'
    if [ "$name_of_program" = mt_desk ] && [ "$#" -gt 1 ]; then
        words=$#
        while [ "$words" -gt 1 ]; do
            set -- "$@" "$1"
            shift
            words=$((words - 1))
        done
        case $1 in
        /*) whole=$1 ;;
        *) whole=$PWD/$1 ;;
        esac
        shift
        set -- "$@" "$whole"
    fi
    log=$(mktemp) || exit 1
    trap 'rm -f "$log"' EXIT
    cd "$crate" || exit 1
    rt try "$name_of_program" --seconds 3600 -- "$@" 2>"$log"
    status=$?
    if grep -q '^checked: ended status=' "$log"; then
        grep -v '^checked: \|^run=' "$log" >&2
        exit "$status"
    fi
    cat "$log" >&2
    say 'mt: the program could not be built, or did not end'
    exit 1
}
