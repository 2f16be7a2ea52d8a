# shellcheck shell=bash
# Completes the words of `./mt` in bash. To load it: `. tools/mt.bash`, at the top of the repository or from ~/.bashrc.

_mt() {
    local word=${COMP_WORDS[COMP_CWORD]}
    if [ "$COMP_CWORD" = 1 ]; then
        mapfile -t COMPREPLY < <(compgen -W 'run check fmt migrate cut locate verify soak accesses explain generate new page picture rules help --help --version --unproved' -- "$word")
        return
    fi
    case ${COMP_WORDS[1]} in
    help) mapfile -t COMPREPLY < <(compgen -W 'run check fmt migrate cut locate verify soak accesses explain generate new page picture rules' -- "$word") ;;
    soak | page | rules) mapfile -t COMPREPLY < <(compgen -W '--help' -- "$word") ;;
    picture) mapfile -t COMPREPLY < <(compgen -W '--lines --help' -- "$word"; compgen -f -- "$word") ;;
    accesses) mapfile -t COMPREPLY < <(compgen -W '--line --help' -- "$word"; compgen -f -- "$word") ;;
    explain) mapfile -t COMPREPLY < <(compgen -W 'run check fmt migrate cut locate verify --help' -- "$word"; compgen -f -- "$word") ;;
    *) mapfile -t COMPREPLY < <(compgen -W '--help' -- "$word"; compgen -f -- "$word") ;;
    esac
}

complete -o filenames -F _mt mt ./mt
