# Completions of boxglue for fish. The file belongs in a folder of its completions.
set -l uses typeset session list fonts paint

complete -c boxglue -s h -l help -d 'Print help'
complete -c boxglue -n "not __fish_seen_subcommand_from $uses" -s V -l version -d 'Print the version'
complete -c boxglue -f -n "not __fish_seen_subcommand_from $uses" -a typeset -d 'Run the script of standard input and write the DVI file'
complete -c boxglue -f -n "not __fish_seen_subcommand_from $uses" -a session -d 'Run the lines of standard input as they come and write the DVI file'
complete -c boxglue -f -n "not __fish_seen_subcommand_from $uses" -a list -d 'Print the pages of a DVI file and their marks'
complete -c boxglue -f -n "not __fish_seen_subcommand_from $uses" -a fonts -d 'Print the units of a DVI file and the fonts that it defines'
complete -c boxglue -f -n "not __fish_seen_subcommand_from $uses" -a paint -d 'Print a page of a DVI file as a bitmap in plain PBM'
complete -c boxglue -x -n '__fish_seen_subcommand_from paint' -l page -d 'The page, from 1 on'
complete -c boxglue -x -n '__fish_seen_subcommand_from paint' -l dpi -d 'Pixels an inch'
complete -c boxglue -x -n '__fish_seen_subcommand_from paint' -l width -d 'Pixels across'
complete -c boxglue -x -n '__fish_seen_subcommand_from paint' -l height -d 'Pixels down'
