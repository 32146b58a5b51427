# Completion of the words of torview, for bash: its options, and a result.
_torview() {
    local word=${COMP_WORDS[COMP_CWORD]} before=${COMP_WORDS[COMP_CWORD - 1]}
    if [ "$before" = = ]; then before=${COMP_WORDS[COMP_CWORD - 2]}; fi
    COMPREPLY=()
    case $before in
        --most | --depth | --link) compopt +o default ;;
        *)
            case $word in
                -*) mapfile -t COMPREPLY < <(compgen -W '--most --depth --link' -- "$word") ;;
            esac ;;
    esac
}
complete -o default -F _torview torview
