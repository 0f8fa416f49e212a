# Completion of bgt-geo for fish.
complete -c bgt-geo -n __fish_use_subcommand -f -a messages -d 'polygons of a GIS as one message'
complete -c bgt-geo -n __fish_use_subcommand -f -a changes -d 'what differs between a register and layers, as one message'
complete -c bgt-geo -n __fish_use_subcommand -f -a layers -d 'the state at a moment as layers'
complete -c bgt-geo -n __fish_use_subcommand -f -a why -d 'what each refusal means, where it stands, and what to mend'
complete -c bgt-geo -n __fish_use_subcommand -f -a picture -d 'the map at a moment as a picture'
complete -c bgt-geo -n __fish_use_subcommand -f -a page -d 'the map at all moments as one page'
set -l drawn '__fish_seen_subcommand_from messages changes'
complete -c bgt-geo -n "$drawn" -l area -r -d "the layer of the holder's area"
complete -c bgt-geo -n "$drawn" -l mapping -r -d 'which columns and values become which fields'
complete -c bgt-geo -n "$drawn" -l nodes -d "put corners on neighbours' sides in"
complete -c bgt-geo -n "$drawn" -l round -d 'round corners that are not on the millimetre, and tell'
complete -c bgt-geo -n "$drawn" -l assume-rd -d 'take coordinates as EPSG:28992'
complete -c bgt-geo -n '__fish_seen_subcommand_from changes' -l end -x -d 'the end day of what is gone'
complete -c bgt-geo -n '__fish_seen_subcommand_from messages changes picture' -l holder -x -d 'whose objects'
complete -c bgt-geo -n '__fish_seen_subcommand_from messages changes layers picture' -l moment -x -d 'the moment'
complete -c bgt-geo -n '__fish_seen_subcommand_from messages changes layers picture page' -s o -l output -r -d 'the file to write'
complete -c bgt-geo -n '__fish_seen_subcommand_from layers' -l format -x -d "the format by OGR's name"
complete -c bgt-geo -n '__fish_seen_subcommand_from why' -l geojson -r -d 'objects, sides and points of the refusals'
complete -c bgt-geo -n '__fish_seen_subcommand_from why' -l picture -x -a '(__fish_complete_directories)' -d 'a folder for pictures'
complete -c bgt-geo -n '__fish_seen_subcommand_from why' -l register -r -d 'the register that the messages were loaded into'
complete -c bgt-geo -n '__fish_seen_subcommand_from picture' -l width -x -d 'the width of the map in pixels'
