# Completion of dvdisaster_rs01 for fish.
set -l commands create fix verify scan read demo
complete -c dvdisaster_rs01 -n "not __fish_seen_subcommand_from $commands" -f
complete -c dvdisaster_rs01 -n "not __fish_seen_subcommand_from $commands" -a create -d 'make the error correction file of an image'
complete -c dvdisaster_rs01 -n "not __fish_seen_subcommand_from $commands" -a fix -d 'repair an image by its file'
complete -c dvdisaster_rs01 -n "not __fish_seen_subcommand_from $commands" -a verify -d 'compare an image with its file'
complete -c dvdisaster_rs01 -n "not __fish_seen_subcommand_from $commands" -a scan -d 'tell what a disc still gives'
complete -c dvdisaster_rs01 -n "not __fish_seen_subcommand_from $commands" -a read -d 'read a disc into an image'
complete -c dvdisaster_rs01 -n "not __fish_seen_subcommand_from $commands" -a demo -d 'make, damage and repair an image of numbers'
complete -c dvdisaster_rs01 -l help -d 'tell all commands, or behind a command that one'
complete -c dvdisaster_rs01 -n "not __fish_seen_subcommand_from $commands" -l version -d 'tell the version'
complete -c dvdisaster_rs01 -n "__fish_seen_subcommand_from create" -l parity -x -a "normal high 8 16 32 64 100" -d 'parity bytes in a codeword of 255'
complete -c dvdisaster_rs01 -n "__fish_seen_subcommand_from create fix read" -l workers -x -d 'threads, 1 to 32'
complete -c dvdisaster_rs01 -n "__fish_seen_subcommand_from fix" -l cut -d 'cut off what follows the image'
complete -c dvdisaster_rs01 -n "__fish_seen_subcommand_from scan read" -l drive -r -d 'a drive, asked in the order given'
complete -c dvdisaster_rs01 -n "__fish_seen_subcommand_from read" -l adaptive -d 'the longest unread run first, from its middle'
complete -c dvdisaster_rs01 -n "__fish_seen_subcommand_from read" -l jump -x -d 'sectors from a failed one to the next that is tried'
complete -c dvdisaster_rs01 -n "__fish_seen_subcommand_from read" -l tries -x -d 'how often one sector is asked for, 1 to 16'
complete -c dvdisaster_rs01 -n "__fish_seen_subcommand_from demo" -f
