# shellcheck shell=sh
# What the script `mt` says about itself: its forms, each with the program that does it, its own words, what it reads from
# standard input, what it does, and an example.
forms() {
    cat <<'FORMS'
run|mt_cli||a job|replays a job, and writes its trace and a closing line|./mt run jobs/first.job
check|mt_cli||a job|reads a job, and writes the closing line alone|./mt check jobs/first.job
fmt|mt_cli||a job|writes a job in canonical form|./mt fmt jobs/loose.job
migrate|mt_cli||a job|writes a job in canonical form, in version 2|./mt migrate jobs/first.job
cut|mt_cli|S T L|a job|cuts a pass over set S into ticks of at most T accesses, for waits of at most L|./mt cut 0 96 47 jobs/first.job
locate|mt_cli||a slice and its wrong reads|lists the single faults that explain the wrong reads of a slice|./mt locate jobs/located-one.locate
verify|mt_cli||a job and a trace|says whether a trace is that of a job|./mt verify jobs/same.verify
soak|mt_cli|NUMBER||replays the generated job of that number, and writes its sums|./mt soak 0
accesses|mt_desk|[--line N] FILE||replays a job, and writes its trace with the accesses of each line, or of line N|./mt accesses jobs/first.job
explain|mt_desk|[FORM] FILE||explains in words why a file is refused|./mt explain jobs/refused-address.job
generate|mt_desk|FILE FOLDER||writes a job's configuration as tables in C into the folder|./mt generate jobs/first.job unit
page|mt_page|||writes a page that replays jobs in a browser|./mt page > mt.html
picture|mt_desk|[--lines A-B] FILE||replays a job, and writes a page with pictures of its memory, its events and its trace|./mt picture jobs/urgent.job
new|mt_desk|FILE||writes a job to begin with, with a comment on each key|./mt new my.job
rules|mt_desk|||lists the rules by which an input may be refused|./mt rules
FORMS
}

# A column of a form's row: 2 the program, 3 its words, 4 what it reads, 5 what it does, 6 an example. Nothing if there is
# no such form.
column_of() {
    forms | awk -F'|' -v form="$1" -v column="$2" '$1 == form { print $column }'
}

# The words of a form, as they are written.
synopsis_of() {
    forms | awk -F'|' -v form="$1" '$1 == form { print "./mt " $1 ($3 == "" ? "" : " " $3) ($4 == "" ? "" : " [FILE]") }'
}

exit_numbers() {
    cat <<'NUMBERS'
Exit numbers:
  0  the whole answer was written
  1  the program could not be built, or a file could not be read or written
  2  usage: the command line is none of the forms
  3  bad config: the configuration is refused
  4  bad line: a script line is refused
  5  read fault: the input failed
  6  the output failed
  7  no memory was found
  8  differs: the trace given to verify is not that of the job
NUMBERS
}

print_help() {
    cat <<'HELP'
mt replays jobs over a simulated memory under a RAM test and a flash test.

Usage: ./mt FORM [WORDS] [FILE]     reads FILE, or standard input if none is named
       ./mt FORM --help             help on one form
       ./mt help [FORM]             the same
       ./mt --version               the versions of the project and of the toolchain
       ./mt --unproved FORM ..      runs the form without proving anything

Forms:
HELP
    forms | awk -F'|' '{ printf "  %-26s %s\n", $1 ($3 == "" ? "" : " " $3) ($4 == "" ? "" : " [FILE]"), $5 }'
    echo
    exit_numbers
    cat <<'HELP'

If a form refuses FILE (3, 4, 8), it explains why on standard error.
The first run proves and builds the program, which takes some 18 minutes on four processors.
HELP
}

# The help of one form.
print_form_help() {
    forms | awk -F'|' -v form="$1" '$1 == form {
        printf "./mt %s%s%s\n    %s\n", $1, $3 == "" ? "" : " " $3, $4 == "" ? "" : " [FILE]", $5
        if ($4 != "") printf "    FILE, or standard input if none is named: %s\n", $4
        printf "Example:\n    %s\n", $6
    }'
    echo
    exit_numbers
}

print_version() {
    printf 'mt %s\n' "$(cat "$1/VERSION")"
    if command -v rt >/dev/null; then
        printf 'toolchain %s\n' "$(rt version)"
    else
        echo 'toolchain: no rt found'
    fi
}

# The form whose name takes the fewest edits of letters from a word, at most two; nothing if each takes more.
nearest_form() {
    forms | awk -F'|' -v word="$1" '
        function least(a, b) { return a < b ? a : b }
        # How many letters are put in, taken out or changed between two words.
        function distance(a, b,    i, j, above, row, left) {
            for (j = 0; j <= length(b); j++) row[j] = j
            for (i = 1; i <= length(a); i++) {
                left = row[0]
                row[0] = i
                for (j = 1; j <= length(b); j++) {
                    above = row[j]
                    row[j] = least(least(row[j - 1], above) + 1, left + (substr(a, i, 1) != substr(b, j, 1)))
                    left = above
                }
            }
            return row[length(b)]
        }
        BEGIN { fewest = 3; word = tolower(word) }
        {
            edits = distance(word, $1)
            if (edits < fewest && edits < length($1)) { fewest = edits; nearest = $1 }
        }
        END { if (nearest != "") print nearest }'
}
