# Completions of rinddecade for bash, from what it says by --help, as tools/make_completions writes them.

_rinddecade_files() {
    compopt -o filenames 2>/dev/null
    local IFS=$'\n'
    COMPREPLY=($(compgen -f -- "$word"))
}

_rinddecade() {
    local word=${COMP_WORDS[COMP_CWORD]} before=${COMP_WORDS[COMP_CWORD-1]}
    COMPREPLY=()
    [[ $word == "=" ]] && word=
    [[ $before == "=" ]] && before=${COMP_WORDS[COMP_CWORD-2]}
    if ((COMP_CWORD == 1)); then
        COMPREPLY=($(compgen -W "debug picture page profile adapter explain port help -h --help -V --version" -- "$word"))
        return
    fi
    case "${COMP_WORDS[1]}" in
        help) ((COMP_CWORD == 2)) && COMPREPLY=($(compgen -W "debug picture page profile adapter explain port" -- "$word")) ;;
        debug)
            case "$before" in
                --input) _rinddecade_files; return ;;
                --entry|--history|--steps) return ;;
                --width) COMPREPLY=($(compgen -W "4 8 16" -- "$word")); return ;;
                --color) COMPREPLY=($(compgen -W "auto always never" -- "$word")); return ;;
            esac
            case "$word" in
                -*) COMPREPLY=($(compgen -W "--input --entry --width --history --steps --color -h --help" -- "$word")) ;;
                *) _rinddecade_files ;;
            esac
            ;;
        picture)
            case "$before" in
                --input|--commands|--to) _rinddecade_files; return ;;
                --entry|--history|--steps|--watch|--from|--most|--row) return ;;
                --width) COMPREPLY=($(compgen -W "4 8 16" -- "$word")); return ;;
            esac
            case "$word" in
                -*) COMPREPLY=($(compgen -W "--input --entry --width --history --steps --commands --watch --from --most --row --to --force -h --help" -- "$word")) ;;
                *) _rinddecade_files ;;
            esac
            ;;
        page)
            case "$before" in
                --most|--entry|--history|--steps|--from|--each|--around|--elements) return ;;
                --input|--commands|--to) _rinddecade_files; return ;;
                --width) COMPREPLY=($(compgen -W "4 8 16" -- "$word")); return ;;
            esac
            case "$word" in
                -*) COMPREPLY=($(compgen -W "--most --input --entry --width --history --steps --commands --from --each --around --elements --to --force -h --help" -- "$word")) ;;
                *) _rinddecade_files ;;
            esac
            ;;
        profile)
            case "$before" in
                --input|--to) _rinddecade_files; return ;;
                --entry|--history|--steps|--from|--most|--top) return ;;
                --width) COMPREPLY=($(compgen -W "4 8 16" -- "$word")); return ;;
                --by) COMPREPLY=($(compgen -W "line function form access parting" -- "$word")); return ;;
                --color) COMPREPLY=($(compgen -W "auto always never" -- "$word")); return ;;
            esac
            case "$word" in
                -*) COMPREPLY=($(compgen -W "--input --entry --width --history --steps --from --most --top --by --color --annotate --json --compare --to --force -h --help" -- "$word")) ;;
                *) _rinddecade_files ;;
            esac
            ;;
        adapter)
            case "$word" in
                -*) COMPREPLY=($(compgen -W "-h --help" -- "$word")) ;;
            esac
            ;;
        explain)
            case "$word" in
                -*) COMPREPLY=($(compgen -W "-h --help" -- "$word")) ;;
                *) COMPREPLY=($(compgen -W "S1 S2 S3 S4 S5 S6 S7 S8 S9 S10 S11 S12 S13 E1 E2 I1 I2 I3 I4 F1 F2 F3 F4 F5 C1 C2 C3 C4 C6 C7 C8 C9 C10 C11 C12" -- "$word")) ;;
            esac
            ;;
        port)
            case "$before" in
                --to) _rinddecade_files; return ;;
            esac
            case "$word" in
                -*) COMPREPLY=($(compgen -W "--to --force -h --help" -- "$word")) ;;
                *) _rinddecade_files ;;
            esac
            ;;
    esac
}

complete -F _rinddecade rinddecade
