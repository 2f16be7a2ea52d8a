#!/bin/sh
# The command `mt`: its help, its forms, and the programs that do them. If a program is missing, or a source of its crates or the
# toolchain has changed, it is proved and built first, with a line for each crate on standard error. If that fails, what the build
# said goes to standard error too, and the exit number is 1, which the program `mt_cli` never gives.
#
# With --unproved as the first word, the program is compiled and run with the other words, and nothing is proved or kept.
set -u
top=$(CDPATH='' cd -- "$(dirname -- "$0")" && pwd -P) || exit 1
. "$top/tools/program.sh"
. "$top/tools/build.sh"
. "$top/tools/page.sh"
. "$top/tools/help.sh"
unproved=

# Takes the place of this shell, when nothing is left to do after the program.
become_program() {
    [ -z "$unproved" ] || try_program "$@"
    is_fresh || build || exit 1
    exec "$program" "$@"
}

run_program() (
    become_program "$@"
)

# Words that are no form: `usage` and 2, as the program answers. It is not built for that.
refuse_words() {
    use_program mt_cli
    if [ -x "$program" ] && [ -s "$stamp" ]; then
        exec "$program" "$@"
    fi
    echo usage
    exit 2
}

# Explains why a form refused a file, if it ended with such a number and the file can be read once more.
explain_refusal() {
    case $1 in
    3 | 4 | 8) [ -f "$2" ] || return 0 ;;
    *) return 0 ;;
    esac
    file=$2
    shift 2
    use_program mt_desk
    if [ -z "$unproved" ] && ! is_fresh && ! command -v rt >/dev/null; then
        say 'mt: no explanation: mt_desk is not built, and there is no rt to build it'
        return 0
    fi
    run_program explain "$1" "$file" >&2 || true
}

# A form over its input: the file that stands last of its words, or standard input.
run_form() {
    use_program mt_cli
    reads=$(column_of "$1" 4)
    # The form's own words, and its name.
    # shellcheck disable=SC2046
    own=$(set -- $(column_of "$1" 3) && echo $(($# + 1)))
    if [ "$#" = "$own" ]; then
        if [ -n "$reads" ] && [ -t 0 ]; then
            say "mt: reads $reads from the terminal, up to Ctrl-D; or name a file: $(synopsis_of "$1")"
        fi
        become_program "$@"
    fi
    if [ -n "$reads" ] && [ "$#" = $((own + 1)) ]; then
        # The last word comes to the front.
        while [ "$own" -gt 0 ]; do
            set -- "$@" "$1"
            shift
            own=$((own - 1))
        done
        if [ -e "$1" ]; then
            file=$1
            shift
            run_program "$@" <"$file"
            status=$?
            explain_refusal "$status" "$file" "$1"
            exit "$status"
        fi
        say "mt: there is no file '$1'"
        set -- "$@" "$1"
        shift
    else
        say "mt: usage: $(synopsis_of "$1")"
    fi
    refuse_words "$@"
}

main() {
    if [ "${1-}" = --unproved ]; then
        unproved=yes
        shift
    fi
    form=${1-}
    if [ "$form" = help ] && [ -n "${2-}" ]; then
        form=$2
        set -- "$2" --help
    fi
    case $form in
    help | --help | -h) print_help && exit ;;
    --version | -V) print_version "$top" && exit ;;
    esac
    does=$(column_of "$form" 2)
    case $does,${2-} in
    mt_*,--help | mt_*,-h) print_form_help "$form" && exit ;;
    mt_cli,*) run_form "$@" ;;
    mt_desk,*) use_program mt_desk && become_program "$@" ;;
    mt_page,) write_page ;;
    mt_page,*) say "mt: usage: $(synopsis_of "$form")" && refuse_words "$@" ;;
    esac
    nearest=$(nearest_form "$form")
    said=
    [ -z "$form" ] || said="there is no form '$form'; "
    [ -z "$nearest" ] || said="${said}the nearest is '$nearest'; "
    say "mt: $said./mt --help lists the forms"
    refuse_words "$@"
}

# The shell has read all of this file here, so that it may change while the program is built.
main "$@"
