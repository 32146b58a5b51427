# Completion of the words of torleak, for bash: a result, and dumps behind it.
complete -o default torleak
