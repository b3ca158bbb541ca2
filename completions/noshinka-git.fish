# Completion of noshinka-git for fish: put it into ~/.config/fish/completions. Made by docs/manual.py.
complete -c noshinka-git -f
complete -c noshinka-git -n __fish_use_subcommand -a install -d 'Has git do so in a repository'
complete -c noshinka-git -n __fish_use_subcommand -a uninstall -d 'Takes that back'
complete -c noshinka-git -n __fish_use_subcommand -a merge-driver -d 'Merges two versions of a topology: git calls it'
complete -c noshinka-git -n __fish_use_subcommand -a textconv -d 'Prints a feature or an arc a line: git calls it for diffs'
complete -c noshinka-git -n __fish_use_subcommand -a pre-commit -d 'Refuses a commit of topologies with errors: git calls it'
complete -c noshinka-git -n __fish_use_subcommand -s h -l help -d 'Print help'
complete -c noshinka-git -n __fish_use_subcommand -s V -l version -d 'Print version'
complete -c noshinka-git -n '__fish_seen_subcommand_from install' -F
complete -c noshinka-git -n '__fish_seen_subcommand_from install' -l global -d 'Only the lines of git config, for all repositories of the user'
complete -c noshinka-git -n '__fish_seen_subcommand_from install' -s h -l help -d 'Print help'
complete -c noshinka-git -n '__fish_seen_subcommand_from uninstall' -F
complete -c noshinka-git -n '__fish_seen_subcommand_from uninstall' -l global -d 'The lines of git config for all repositories of the user'
complete -c noshinka-git -n '__fish_seen_subcommand_from uninstall' -s h -l help -d 'Print help'
complete -c noshinka-git -n '__fish_seen_subcommand_from merge-driver' -F
complete -c noshinka-git -n '__fish_seen_subcommand_from merge-driver' -s h -l help -d 'Print help'
complete -c noshinka-git -n '__fish_seen_subcommand_from textconv' -F
complete -c noshinka-git -n '__fish_seen_subcommand_from textconv' -s h -l help -d 'Print help'
complete -c noshinka-git -n '__fish_seen_subcommand_from pre-commit' -s h -l help -d 'Print help'
