# Completions for fish: the options of dam-desk. Other words are files.
complete -c dam-desk -l journal -r -d 'Print the journal in a file'
complete -c dam-desk -f -l help -d 'Print help'
