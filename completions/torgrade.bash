# Completion of the words of torgrade, for bash: its option, a file of known relationships, and dumps behind it.
_torgrade() {
    local word=${COMP_WORDS[COMP_CWORD]} before=${COMP_WORDS[COMP_CWORD - 1]}
    if [ "$before" = = ]; then before=${COMP_WORDS[COMP_CWORD - 2]}; fi
    COMPREPLY=()
    case $before in
        --cone) compopt +o default ;;
        *)
            case $word in
                -*) mapfile -t COMPREPLY < <(compgen -W '--cone' -- "$word") ;;
            esac ;;
    esac
}
complete -o default -F _torgrade torgrade
