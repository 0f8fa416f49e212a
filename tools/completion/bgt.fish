# Completion of bgt for fish.
complete -c bgt -f
complete -c bgt -n __fish_use_subcommand -a check -d 'answer the messages of standard input, keep nothing'
complete -c bgt -n __fish_use_subcommand -a load -d 'answer the messages of standard input, keep what is accepted'
complete -c bgt -n __fish_use_subcommand -a explain -d 'answer the messages of standard input over a register, keep nothing, say why a map is not tiled'
complete -c bgt -n __fish_use_subcommand -a state -d 'what a register has at a moment'
complete -c bgt -n __fish_use_subcommand -a history -d 'all versions of an object'
complete -c bgt -n __fish_use_subcommand -a point -d 'the ground object at a point'
complete -c bgt -n __fish_use_subcommand -a export -d 'the map of a moment as messages'
complete -c bgt -n __fish_use_subcommand -a trial -d 'a test map in memory'
complete -c bgt -n __fish_use_subcommand -a rings -d 'whether each ring is simple and runs the right way round'
complete -c bgt -n '__fish_seen_subcommand_from load explain state history point export' -F
