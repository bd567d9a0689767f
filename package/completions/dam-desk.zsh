#compdef dam-desk
# Completions for zsh: the file and the options of dam-desk.
_arguments \
    '(- 1)--journal[print the journal in a file]:file of a desk:_files' \
    '(- 1)--help[print help]' \
    '(--journal --help)1:file of a desk:_files'
