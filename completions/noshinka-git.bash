# Completion of noshinka-git for bash: source it, or put it into bash-completion's folder. Made by docs/manual.py.
_noshinka-git() {
    local word cur=${COMP_WORDS[COMP_CWORD]} before=${COMP_WORDS[COMP_CWORD-1]} command= words=
    COMPREPLY=()
    # A `=` is a word of its own.
    if [[ $before == = ]]; then before=${COMP_WORDS[COMP_CWORD-2]}; fi
    if [[ $cur == = ]]; then cur=; fi
    for word in "${COMP_WORDS[@]:1:COMP_CWORD-1}"; do
        case $word in
            install|uninstall|merge-driver|textconv|pre-commit) command=$word; break ;;
        esac
    done
    case $command in
        "") words="install uninstall merge-driver textconv pre-commit -h --help -V --version" ;;
        install) words="--global -h --help" ;;
        uninstall) words="--global -h --help" ;;
        merge-driver) words="-h --help" ;;
        textconv) words="-h --help" ;;
        pre-commit) words="-h --help" ;;
    esac
    if [[ -z $command || $cur == -* ]]; then
        COMPREPLY=($(compgen -W "$words" -- "$cur"))
        return
    fi
    compopt -o filenames 2> /dev/null
    mapfile -t COMPREPLY < <(compgen -f -- "$cur")
}
complete -F _noshinka-git noshinka-git
