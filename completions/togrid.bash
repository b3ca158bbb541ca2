# Completion of togrid for bash: source it, or put it into bash-completion's folder. Made by docs/manual.py.
_togrid() {
    local word cur=${COMP_WORDS[COMP_CWORD]} before=${COMP_WORDS[COMP_CWORD-1]} command= words=
    COMPREPLY=()
    # A `=` is a word of its own.
    if [[ $before == = ]]; then before=${COMP_WORDS[COMP_CWORD-2]}; fi
    if [[ $cur == = ]]; then cur=; fi
    case $before in
        --step) return ;;
        --unit) return ;;
        --snap) return ;;
        --id) return ;;
        --layer) return ;;
        --heights) COMPREPLY=($(compgen -W "drop refuse" -- "$cur")); return ;;
        --reals) return ;;
        --unclosed) COMPREPLY=($(compgen -W "close refuse" -- "$cur")); return ;;
        --collapsed) COMPREPLY=($(compgen -W "null drop refuse" -- "$cur")); return ;;
        --folded) COMPREPLY=($(compgen -W "split refuse" -- "$cur")); return ;;
        --collections) COMPREPLY=($(compgen -W "split refuse" -- "$cur")); return ;;
        --quantize) return ;;
        --rewind) COMPREPLY=($(compgen -W "keep rfc7946 d3" -- "$cur")); return ;;
    esac
    case $command in
        "") words="--build --back --faults --step --unit --snap --id --number --layer --heights --reals --unclosed --collapsed --folded --collections --seq --numbers --like --quantize --rewind -o --output --report -q --quiet --strict -h --help -V --version" ;;
    esac
    if [[ $cur == -* ]]; then
        COMPREPLY=($(compgen -W "$words" -- "$cur"))
        return
    fi
    compopt -o filenames 2> /dev/null
    mapfile -t COMPREPLY < <(compgen -f -- "$cur")
}
complete -F _togrid togrid
