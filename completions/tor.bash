# Completion of the words of tor, for bash.
_tor() {
    local word=${COMP_WORDS[COMP_CWORD]} before=${COMP_WORDS[COMP_CWORD - 1]}
    if [ "$before" = = ]; then before=${COMP_WORDS[COMP_CWORD - 2]}; fi
    COMPREPLY=()
    case $before in
        --as-sets) mapfile -t COMPREPLY < <(compgen -W 'cut skip' -- "${word#=}") ;;
        --order) mapfile -t COMPREPLY < <(compgen -W 'seen short' -- "${word#=}") ;;
        --ratio | --max-paths | --sample | --top) compopt +o default ;;
        *)
            case $word in
                -*) mapfile -t COMPREPLY < <(compgen -W '--list --survey --ties --ask --serial1 --as-sets --ratio --max-paths --sample --given --migrate --resume --order --top' -- "$word") ;;
            esac ;;
    esac
}
complete -o default -F _tor tor
