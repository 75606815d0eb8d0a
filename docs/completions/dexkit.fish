# Completion of dexkit for fish.

complete -c dexkit -f
complete -c dexkit -n __fish_use_subcommand -s h -l help -d 'Print the use'
complete -c dexkit -n __fish_use_subcommand -s V -l version -d 'Print the version'
complete -c dexkit -n __fish_use_subcommand -a check -d 'Report of each file whether it is accepted'
complete -c dexkit -n __fish_use_subcommand -a merge -d 'Write the canonical form of all classes of the files'
complete -c dexkit -n __fish_use_subcommand -a normalise -d 'Write the canonical form of a file'
complete -c dexkit -n __fish_use_subcommand -a digest -d 'Print a digest of each class of the files'
complete -c dexkit -n __fish_use_subcommand -a conflicts -d 'List the classes of which not all copies are equal'
complete -c dexkit -n __fish_use_subcommand -a diff -d 'List the classes that changed from old files to new ones'
complete -c dexkit -n __fish_use_subcommand -a count -d 'Count what a merge of the files would have'
complete -c dexkit -n __fish_use_subcommand -a dump -d 'List the classes of a file'
complete -c dexkit -n __fish_use_subcommand -a repair -d 'Write a file with its checksum and signature set right'
complete -c dexkit -n __fish_use_subcommand -a help -d 'Print the use of the program or of a command'

set -l files check merge normalise normalize digest conflicts diff count dump repair
complete -c dexkit -n "__fish_seen_subcommand_from $files" -k -a '(__fish_complete_suffix .dex)'
# After `@` comes the name of a list of arguments.
complete -c dexkit -n "__fish_seen_subcommand_from $files; and string match -q '@*' -- (commandline -ct)" \
    -a '@(__fish_complete_path (string sub -s 2 -- (commandline -ct)))'
complete -c dexkit -n "__fish_seen_subcommand_from $files" -l help -d 'Print the use'
complete -c dexkit -l verbose -d 'Say why a device failed, and what to do about a refusal'
complete -c dexkit -n '__fish_seen_subcommand_from check' -l keep-going -d 'Go on after a file that cannot be read'
complete -c dexkit -n '__fish_seen_subcommand_from check digest conflicts count' -s z -l null \
    -d 'Names end with a zero byte'
complete -c dexkit -n '__fish_seen_subcommand_from diff merge' -s z -l null \
    -d 'Names in lists end with a zero byte'
complete -c dexkit -n '__fish_seen_subcommand_from conflicts diff' -l strip \
    -d 'Compare without debug programs and source texts'
complete -c dexkit -n '__fish_seen_subcommand_from count' -l each -d 'Count what each file has'
complete -c dexkit -n '__fish_seen_subcommand_from count' -l by -x -a package \
    -d 'Count what the classes of each package have'
complete -c dexkit -n '__fish_seen_subcommand_from diff' -l from -r -F -d 'The old files'
complete -c dexkit -n '__fish_seen_subcommand_from diff' -l to -r -F -d 'The new files'
complete -c dexkit -n '__fish_seen_subcommand_from dump' -l all -d 'List all that the classes have'
complete -c dexkit -n '__fish_seen_subcommand_from dump' -l class -x -d 'List the class of this name alone'
complete -c dexkit -n '__fish_seen_subcommand_from merge' -s o -l out -r -F -d 'The file that is written'
complete -c dexkit -n '__fish_seen_subcommand_from merge normalise normalize repair' -l atomic \
    -d 'Move the output into its place when it is whole'
complete -c dexkit -n '__fish_seen_subcommand_from merge digest' -l strip -d 'Leave out debug programs and source texts'
complete -c dexkit -n '__fish_seen_subcommand_from merge' -l fan -x -d 'Merge N files at a time'
complete -c dexkit -n '__fish_seen_subcommand_from merge' -l max-types -x -d 'At most N types'
complete -c dexkit -n '__fish_seen_subcommand_from merge' -l max-protos -x -d 'At most N method prototypes'
complete -c dexkit -n '__fish_seen_subcommand_from merge' -l max-fields -x -d 'At most N fields'
complete -c dexkit -n '__fish_seen_subcommand_from merge' -l max-methods -x -d 'At most N methods'
complete -c dexkit -n '__fish_seen_subcommand_from merge' -l max-weight -x -d 'A weight of at most N'
complete -c dexkit -n '__fish_seen_subcommand_from help' -a 'check merge normalise digest conflicts diff count dump repair'
