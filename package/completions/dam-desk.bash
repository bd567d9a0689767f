# Completions for bash: the options of dam-desk. Other words are files, which bash completes by itself.
_dam_desk() {
    local word=${COMP_WORDS[COMP_CWORD]}
    COMPREPLY=()
    if [ "$COMP_CWORD" -eq 1 ] && [ "${word#-}" != "$word" ]; then
        COMPREPLY=($(compgen -W '--journal --help' -- "$word"))
    fi
}
complete -F _dam_desk -o bashdefault -o default dam-desk
