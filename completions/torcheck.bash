# Completion of the words of torcheck, for bash: a result, and dumps behind it.
_torcheck() {
    COMPREPLY=()
    case ${COMP_WORDS[COMP_CWORD]} in
        -*) mapfile -t COMPREPLY < <(compgen -W '--any-order' -- "${COMP_WORDS[COMP_CWORD]}") ;;
    esac
}
complete -o default -F _torcheck torcheck
