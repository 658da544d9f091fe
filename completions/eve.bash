# Completion of eve for bash. tools/install puts it where bash looks for it.
_eve() {
    local word=${COMP_WORDS[COMP_CWORD]} before=${COMP_WORDS[COMP_CWORD - 1]} at words=''
    COMPREPLY=()
    for ((at = 1; at < COMP_CWORD; at++)); do
        [[ ${COMP_WORDS[at]} == -- ]] && word=./${word#./} && before=''
    done
    case $before in
        --workers) words=$(seq 16) ;;
        --mixer) words='first whole' ;;
        --format) words='1 2' ;;
        *)
            if ((COMP_CWORD == 1)) || [[ ${COMP_WORDS[1]} == help && $COMP_CWORD == 2 ]]; then
                words='audit explain run show help'
                [[ $COMP_CWORD == 1 && $word == -* ]] && words='-h --help -V --version'
            elif [[ $word == -* ]]; then
                case ${COMP_WORDS[1]} in
                    audit) words='--workers --json -h --help' ;;
                    explain) words='--workers --json -h --help' ;;
                    run) words='--mixer --format -h --help' ;;
                    show) words='--long --json -h --help' ;;
                esac
            fi
            ;;
    esac
    if [[ -n $words ]]; then
        mapfile -t COMPREPLY < <(compgen -W "$words" -- "$word")
    elif [[ ${COMP_WORDS[1]} != help ]]; then
        compopt -o filenames 2> /dev/null
        mapfile -t COMPREPLY < <(compgen -f -- "$word")
    fi
}
complete -F _eve eve
