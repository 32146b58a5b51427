# Completion of the words of torrank, for bash: its options, and a file of known relationships.
_torrank() {
    local word=${COMP_WORDS[COMP_CWORD]}
    COMPREPLY=()
    case $word in
        -*) mapfile -t COMPREPLY < <(compgen -W '--cones --cycles' -- "$word") ;;
    esac
}
complete -o default -F _torrank torrank
