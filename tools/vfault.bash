# Completion of vfault's words for bash: forms, files, the modules of the design, numbers of workers, `strict`.
_vfault() {
    local word=${COMP_WORDS[COMP_CWORD]} form=${COMP_WORDS[1]} place=$COMP_CWORD
    COMPREPLY=()
    if [ "$place" -eq 1 ]; then
        mapfile -t COMPREPLY < <(compgen -W "grade check faults soak dict diagnose certify audit pick" -- "$word")
        return
    fi
    # what stands at each place behind the form
    local -a kinds
    case $form in
        grade) kinds=(file file top workers strict) ;;
        check | faults) kinds=(file top strict) ;;
        soak) kinds=(number size workers) ;;
        dict | pick) kinds=(file file top strict) ;;
        diagnose | audit) kinds=(file file top file strict) ;;
        certify) kinds=(file file top place strict) ;;
        *) return ;;
    esac
    case ${kinds[place - 2]-} in
        file)
            compopt -o filenames 2> /dev/null
            mapfile -t COMPREPLY < <(compgen -f -- "$word")
            ;;
        top) mapfile -t COMPREPLY < <(compgen -W "$(_vfault_modules "${COMP_WORDS[2]}")" -- "$word") ;;
        workers) mapfile -t COMPREPLY < <(compgen -W "1 2 4 8 $(nproc 2> /dev/null)" -- "$word" | sort -nu) ;;
        strict) mapfile -t COMPREPLY < <(compgen -W "strict" -- "$word") ;;
    esac
}

# The modules of a design, by the lines that begin with `module`.
_vfault_modules() {
    local file=$1
    file=${file/#\~\//$HOME/}
    sed -n 's/^[[:space:]]*module[[:space:]]\{1,\}\([A-Za-z_][A-Za-z0-9_$]*\).*/\1/p' "$file" 2> /dev/null
}

complete -F _vfault vfault
