# Completion of typst_check for bash.
_typst_check() {
    local word=${COMP_WORDS[COMP_CWORD]} before=${COMP_WORDS[COMP_CWORD - 1]} IFS=$'\n'
    COMPREPLY=()
    # Bash takes the sign in --format=short for a word of its own.
    if [[ $word == = ]]; then
        word=
    elif [[ $before == = ]]; then
        before=${COMP_WORDS[COMP_CWORD - 2]}
    fi
    case $before in
        --format) COMPREPLY=($(compgen -W $'short\nndjson\ngithub\nsarif' -- "$word")); return ;;
        --color) COMPREPLY=($(compgen -W $'auto\nalways\nnever' -- "$word")); return ;;
        --max-errors) return ;;
        --stdin-filename) return ;;
        --files-from) COMPREPLY=($(compgen -f -- "$word")); return ;;
    esac
    if [[ $word == -* ]]; then
        COMPREPLY=($(compgen -W $'--format\n--color\n--tree\n--page\n-q\n--quiet\n--max-errors\n--deny-warnings\n--stdin-filename\n--files-from\n-h\n--help\n-V\n--version' -- "$word"))
    else
        COMPREPLY=($(compgen -d -- "$word"; compgen -f -X '!*.typ' -- "$word"))
    fi
}
complete -o filenames -F _typst_check typst_check
