# Completion for bash:
#
#     source completions/monastr.bash

_monastr() {
    local word=${COMP_WORDS[COMP_CWORD]} command=${COMP_WORDS[1]} before=${COMP_WORDS[COMP_CWORD - 1]} options=
    COMPREPLY=()
    if [ "$COMP_CWORD" -eq 1 ]; then
        mapfile -t COMPREPLY < <(compgen -W 'decide same gen ltl presburger check certify help prove test --help' -- "$word")
        return
    fi
    case "$before" in
        --max-nodes) return ;;
        --format)
            mapfile -t COMPREPLY < <(compgen -W '1 2' -- "$word")
            return
            ;;
    esac
    case "$command" in
        decide) options='--out --max-nodes --stats --format' ;;
        same) options='--max-nodes' ;;
        gen) options='--decide' ;;
        ltl | presburger) options='--max-nodes' ;;
        check) ;;
        certify) options='--max-nodes' ;;
        *) return ;;
    esac
    if [[ $word == -* ]]; then
        mapfile -t COMPREPLY < <(compgen -W "$options" -- "$word")
    elif [ "$command" != gen ]; then
        compopt -o filenames 2>/dev/null
        mapfile -t COMPREPLY < <(compgen -f -- "$word")
    fi
}
complete -F _monastr monastr
