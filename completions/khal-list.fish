# fish completion for khal-list

# Whether the command has no folder yet.
function __khal_list_lacks_folder
    set -l words (commandline -opc)
    set -l is_value 0
    for word in $words[3..]
        if test $is_value = 1
            set is_value 0
            continue
        end
        switch $word
            case --zone --zone-file --zones --limit --after --format --day-format
                set is_value 1
            case '-*'
            case '*'
                return 1
        end
    end
end

set -l commands list at help
complete -c khal-list -f
complete -c khal-list -n "not __fish_seen_subcommand_from $commands" -f -a list -d 'List the events of a window of time'
complete -c khal-list -n "not __fish_seen_subcommand_from $commands" -f -a at -d 'List what is on at a moment'
complete -c khal-list -n "not __fish_seen_subcommand_from $commands" -f -a help -d 'Print help'
complete -c khal-list -n '__fish_seen_subcommand_from list at; and __khal_list_lacks_folder' -f -a '(__fish_complete_directories)'
complete -c khal-list -n '__fish_seen_subcommand_from help' -f -a 'list at'
complete -c khal-list -n '__fish_seen_subcommand_from list at' -l zone -x -a UTC -d 'The time zone'
complete -c khal-list -n '__fish_seen_subcommand_from list at' -l zone-file -r -F -d 'The time zone of a zone file'
complete -c khal-list -n '__fish_seen_subcommand_from list at' -l zones -x -a '(__fish_complete_directories)' -d 'A folder of zone files for names that a calendar does not define'
complete -c khal-list -n '__fish_seen_subcommand_from list at' -l keep-going -d 'List the sound events of refused files too'
complete -c khal-list -n '__fish_seen_subcommand_from list' -l limit -x -d 'List at most N entries'
complete -c khal-list -n '__fish_seen_subcommand_from list' -l after -x -d 'List the entries after the one with a token'
complete -c khal-list -n '__fish_seen_subcommand_from list' -l notstarted -d 'Leave out what began before the window'
complete -c khal-list -n '__fish_seen_subcommand_from list' -l every-day -d 'List what lasts several days under each of them'
complete -c khal-list -n '__fish_seen_subcommand_from list' -l format -x -a '{cell} {title} {start-time} {end-time} {start-date} {end-date} {location} {description} {uid} {cancelled} {start-unix} {end-unix} {token} {url}' -d 'How an entry is written'
complete -c khal-list -n '__fish_seen_subcommand_from list' -l day-format -x -a '{name} {date}' -d 'How a heading is written'
complete -c khal-list -s h -l help -d 'Print help'
complete -c khal-list -n "not __fish_seen_subcommand_from $commands" -l version -d 'Print the version'
