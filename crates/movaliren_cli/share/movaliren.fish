# Completions of movaliren for fish.
function __movaliren_zones
    set -l folder /usr/share/zoneinfo
    if set -q TZDIR
        set folder $TZDIR
    end
    find $folder -type f ! -name '*.*' ! -path '*/right/*' ! -path '*/posix/*' -printf '%P\n' 2>/dev/null
end

set -l jobs now unix read
complete -c movaliren -f
complete -c movaliren -n __fish_use_subcommand -a now -d 'Put the time before each line'
complete -c movaliren -n __fish_use_subcommand -a unix -d 'Replace Unix time in each line'
complete -c movaliren -n __fish_use_subcommand -a read -d 'Replace a text that is a time in each line'
complete -c movaliren -n __fish_use_subcommand -a help -d 'Print help'
complete -c movaliren -n __fish_use_subcommand -s V -l version -d 'Print the version'
complete -c movaliren -s h -l help -d 'Print help'
complete -c movaliren -n "__fish_seen_subcommand_from $jobs" -a 'rfc3339 rfc2822 http iso8601 stamp'
complete -c movaliren -n "__fish_seen_subcommand_from read" -a unix
complete -c movaliren -n "__fish_seen_subcommand_from $jobs" -s u -l utc -d 'Show UTC'
complete -c movaliren -n "__fish_seen_subcommand_from $jobs" -l offset -x -d 'Show the time at an offset'
complete -c movaliren -n "__fish_seen_subcommand_from $jobs" -s z -l zone -x -a '(__movaliren_zones)' -d 'Show the time in a zone'
complete -c movaliren -n "__fish_seen_subcommand_from $jobs" -s l -l local -d 'Show the time in the zone of the system'
complete -c movaliren -n "__fish_seen_subcommand_from $jobs" -l decimals -x -d 'How many decimals of a second'
complete -c movaliren -n "__fish_seen_subcommand_from unix" -l years -x -a 1970..9999 -d 'The first and the last year of numbers'
complete -c movaliren -n "__fish_seen_subcommand_from unix" -s d -l digits -x -d 'How many digits a number has at least'
complete -c movaliren -n "__fish_seen_subcommand_from unix read" -F
complete -c movaliren -n "__fish_seen_subcommand_from unix" -s a -l after -x -d 'Look for numbers behind a text'
complete -c movaliren -n "__fish_seen_subcommand_from unix" -l all -d 'Replace each number'
complete -c movaliren -n "__fish_seen_subcommand_from read" -s f -l from -x -a 'rfc3339 clf syslog log4j rfc2822 iso8601' -d 'Read the texts of a description'
complete -c movaliren -n "__fish_seen_subcommand_from read" -l from-zone -x -a '(__movaliren_zones)' -d 'The zone of texts without an offset'
complete -c movaliren -n "__fish_seen_subcommand_from read" -l year -x -d 'The year of texts without one'
complete -c movaliren -n "__fish_seen_subcommand_from unix read" -s j -l json -d 'Keep lines of JSON JSON'
complete -c movaliren -n "__fish_seen_subcommand_from unix" -l seconds -d 'Numbers are seconds'
complete -c movaliren -n "__fish_seen_subcommand_from unix" -l milliseconds -d 'Numbers are milliseconds'
complete -c movaliren -n "__fish_seen_subcommand_from unix" -l microseconds -d 'Numbers are microseconds'
complete -c movaliren -n "__fish_seen_subcommand_from unix" -l nanoseconds -d 'Numbers are nanoseconds'
complete -c movaliren -n "__fish_seen_subcommand_from $jobs" -l longest -x -d 'A line of more bytes passes as it is'
complete -c movaliren -n "__fish_seen_subcommand_from $jobs" -s q -l quiet -d 'Do not print how many lines passed'
