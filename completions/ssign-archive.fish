# Made by tools/make-pages from what --help says. Completion of ssign-archive for fish.

# __ssign_archive_command [COMMAND]: whether the command line has this command, or none yet.
function __ssign_archive_command
    set -l words (commandline -opc)
    if set -q argv[1]
        set -q words[2]; and test "$words[2]" = "$argv[1]"
    else
        not set -q words[2]
    end
end

# __ssign_archive_command_second OPTION: whether the second value of this option is next.
function __ssign_archive_command_second
    set -l words (commandline -opc)
    set -q words[3]; and test "$words[-2]" = "$argv[1]"
end

complete -c ssign-archive -f
complete -c ssign-archive -n __ssign_archive_command -l help -s h -d 'show this help message and exit'
complete -c ssign-archive -n __ssign_archive_command -l version -d 'print the version'
complete -c ssign-archive -n __ssign_archive_command -a split -d 'Cut a log into parts that can be reviewed apart'
complete -c ssign-archive -n '__ssign_archive_command split' -l help -s h -d 'show this help message and exit'
complete -c ssign-archive -n '__ssign_archive_command split' -l by -x -a 'host session' -d 'a part for each HOSTNAME, or for each session with the messages that its blocks announce'
complete -c ssign-archive -n '__ssign_archive_command split' -l lines -d 'the log is one message a line, not octet-counted frames'
complete -c ssign-archive -n '__ssign_archive_command split' -l max-len -x -d 'the longest message, in octets'
complete -c ssign-archive -n '__ssign_archive_command split' -l max-messages -x -d 'the most messages'
complete -c ssign-archive -n '__ssign_archive_command split' -l max-expanded -x -d 'refuse a compressed log that expands to more octets than this, as 500M or 5G (default'
complete -c ssign-archive -n '__ssign_archive_command split' -l ssign -r -F -d 'the program ssign (default'
complete -c ssign-archive -n '__ssign_archive_command split' -F
complete -c ssign-archive -n __ssign_archive_command -a join -d 'Write the messages of all logs of a folder, as one log'
complete -c ssign-archive -n '__ssign_archive_command join' -l help -s h -d 'show this help message and exit'
complete -c ssign-archive -n '__ssign_archive_command join' -l lines -d 'the log is one message a line, not octet-counted frames'
complete -c ssign-archive -n '__ssign_archive_command join' -l max-len -x -d 'the longest message, in octets'
complete -c ssign-archive -n '__ssign_archive_command join' -l max-messages -x -d 'the most messages'
complete -c ssign-archive -n '__ssign_archive_command join' -l max-expanded -x -d 'refuse a compressed log that expands to more octets than this, as 500M or 5G (default'
complete -c ssign-archive -n '__ssign_archive_command join' -l ssign -r -F -d 'the program ssign (default'
complete -c ssign-archive -n '__ssign_archive_command join' -a '(__fish_complete_directories)'
complete -c ssign-archive -n __ssign_archive_command -a help -d 'Prints the help of a command'
complete -c ssign-archive -n '__ssign_archive_command help' -a 'split join'
