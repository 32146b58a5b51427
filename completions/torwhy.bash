# Completion of the words of torwhy, for bash: its option, and a result.
_torwhy() {
    local word=${COMP_WORDS[COMP_CWORD]} before=${COMP_WORDS[COMP_CWORD - 1]}
    if [ "$before" = = ]; then before=${COMP_WORDS[COMP_CWORD - 2]}; fi
    COMPREPLY=()
    case $before in
        --path) compopt +o default ;;
        *)
            case $word in
                -*) mapfile -t COMPREPLY < <(compgen -W '--path' -- "$word") ;;
            esac ;;
    esac
}
complete -o default -F _torwhy torwhy
