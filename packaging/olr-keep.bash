# Completions for bash, of olr-keep and its tools: the options that a command's --help lists, and files.
_olr_keep() {
    local options
    COMPREPLY=()
    if [[ $2 == -* ]]; then
        options=$("$1" --help 2> /dev/null | sed -nE 's/^ +(-[^ ].*)/\1/; s/^(-[^ ].*)  .*/\1/; /^-/p' |
            grep -oE -- '--?[A-Za-z][a-z-]*' | sort -u)
        mapfile -t COMPREPLY < <(compgen -W "$options" -- "$2")
    fi
}
complete -o default -F _olr_keep olr-keep
