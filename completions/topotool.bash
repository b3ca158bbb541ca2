# Completion of topotool for bash: source it, or put it into bash-completion's folder. Made by docs/manual.py.
_topotool() {
    local word cur=${COMP_WORDS[COMP_CWORD]} before=${COMP_WORDS[COMP_CWORD-1]} command= words=
    COMPREPLY=()
    # A `=` is a word of its own.
    if [[ $before == = ]]; then before=${COMP_WORDS[COMP_CWORD-2]}; fi
    if [[ $cur == = ]]; then cur=; fi
    for word in "${COMP_WORDS[@]:1:COMP_CWORD-1}"; do
        case $word in
            build|check|faults|merge|remove|diff|feature|mesh|neighbors|info) command=$word; break ;;
        esac
    done
    case $before in
        --grid) return ;;
        --near) return ;;
        --shape) COMPREPLY=($(compgen -W "left right halves" -- "$cur")); return ;;
        --layer) return ;;
        --key) return ;;
        --edges) COMPREPLY=($(compgen -W "all interior exterior" -- "$cur")); return ;;
        --by) return ;;
    esac
    case $command in
        "") words="build check faults merge remove diff feature mesh neighbors info help -h --help -V --version" ;;
        build) words="--grid -o --output --progress -h --help" ;;
        check) words="--ids --near -o --output --progress -h --help" ;;
        faults) words="--grid --all --json --explain -o --output --progress -h --help" ;;
        merge) words="--shape -o --output --progress -h --help" ;;
        remove) words="-o --output --progress -h --help" ;;
        diff) words="--layer --key --json -o --output --progress -h --help" ;;
        feature) words="--layer --seq -o --output --progress -h --help" ;;
        mesh) words="--layer --edges --by -o --output --progress -h --help" ;;
        neighbors) words="--layer --by --ids --keyed -o --output --progress -h --help" ;;
        info) words="--json -o --output --progress -h --help" ;;
    esac
    if [[ -z $command || $cur == -* ]]; then
        COMPREPLY=($(compgen -W "$words" -- "$cur"))
        return
    fi
    compopt -o filenames 2> /dev/null
    mapfile -t COMPREPLY < <(compgen -f -- "$cur")
}
complete -F _topotool topotool
