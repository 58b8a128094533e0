# Completions of ispc_cli for bash, from what it says by --help, as tools/make_completions writes them.

_rinddecade_files() {
    compopt -o filenames 2>/dev/null
    local IFS=$'\n'
    COMPREPLY=($(compgen -f -- "$word"))
}

_ispc_cli() {
    local word=${COMP_WORDS[COMP_CWORD]} before=${COMP_WORDS[COMP_CWORD-1]}
    COMPREPLY=()
    [[ $word == "=" ]] && word=
    [[ $before == "=" ]] && before=${COMP_WORDS[COMP_CWORD-2]}
    case "$before" in
        --input) _rinddecade_files; return ;;
        --entry|--history|--steps) return ;;
        --width) COMPREPLY=($(compgen -W "4 8 16" -- "$word")); return ;;
    esac
    case "$word" in
        -*) COMPREPLY=($(compgen -W "--input --entry --width --history --steps --lane-pure -h --help" -- "$word")) ;;
        *) _rinddecade_files ;;
    esac
}

complete -F _ispc_cli ispc_cli
