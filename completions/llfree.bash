# Completion of llfree in bash: source this file, or lay it into ~/.local/share/bash-completion/completions/llfree.
_llfree() {
    local word=${COMP_WORDS[COMP_CWORD]} before=${COMP_WORDS[COMP_CWORD - 1]} children
    COMPREPLY=()
    if [[ $before == *[\<\>]* ]]; then
        mapfile -t COMPREPLY < <(compgen -f -- "$word")
        return
    fi
    if [ "$COMP_CWORD" = 1 ]; then
        mapfile -t COMPREPLY < <(compgen -W 'run image rebuild report' -- "$word")
        return
    fi
    case ${COMP_WORDS[1]} in run | image) ;; *) return ;; esac
    case $COMP_CWORD in
        2) mapfile -t COMPREPLY < <(compgen -W '1 8 64 512 4096' -- "$word") ;;
        3) mapfile -t COMPREPLY < <(compgen -W '1 2 4 8 16 32 64' -- "$word") ;;
        4)
            children=${COMP_WORDS[2]}
            if [[ $children =~ ^[1-9][0-9]{0,3}$ ]] && ((children <= 4096)); then
                mapfile -t COMPREPLY < <(compgen -W "$((512 * children))" -- "$word")
            fi
            ;;
    esac
}
complete -F _llfree llfree ./llfree
