# Completion of relayd's command line for fish. `python3 tools/command_pages.py` makes it from the command line's tables.

# Whether the command is one of these; without any, whether there is none yet.
function __relayd_command
    set -l words (commandline -opc)
    if test (count $argv) -eq 0
        test (count $words) -eq 1
    else
        contains -- "$words[2]" $argv
    end
end

complete -c relayd -f
complete -c relayd -n __relayd_command -s V -l version -d 'Print the version'
complete -c relayd -n 'not __relayd_command help' -s h -l help -d 'Print help'

complete -c relayd -n __relayd_command -a pass -d 'Copies the datapoints among the lines of standard input to standard output'
complete -c relayd -n __relayd_command -a check -d 'Checks the files of a configuration, and reports the first fault'
complete -c relayd -n __relayd_command -a route -d 'Shows which destinations metrics go to, and under which names'
complete -c relayd -n __relayd_command -a replay -d 'Runs a configuration on a script of events, and shows what each destination got'
complete -c relayd -n __relayd_command -a run -d 'Runs the relay: receives datapoints and sends them to the destinations'
complete -c relayd -n __relayd_command -a report -d 'Prints the counts of a running relay, one line for each destination'
complete -c relayd -n __relayd_command -a watch -d 'Shows datapoints as they pass through a running relay, or counts them by their names'
complete -c relayd -n __relayd_command -a stop -d 'Stops a running relay'
complete -c relayd -n __relayd_command -a restart -d 'Checks the files of a running relay, and stops it if they have no fault'
complete -c relayd -n __relayd_command -a reload -d 'Has a running relay read its files again, over the same connections'
complete -c relayd -n __relayd_command -a help -d 'Prints the help of a command'
complete -c relayd -n '__relayd_command help' -a 'pass check route replay run report watch stop restart reload help'

complete -c relayd -n '__relayd_command pass' -l explain -d 'Writes a note about each bad line, pickle or row to standard error as it comes'
complete -c relayd -n '__relayd_command pass' -l strict -d 'Exits with status 1 if a line, a pickle or a row is bad, or too long'
complete -c relayd -n '__relayd_command pass' -l pickle -d 'Reads frames of pickles, as the pickle port gets them, instead of lines'
complete -c relayd -n '__relayd_command pass' -l moment -x -d 'The time, in seconds, for datapoints whose time is -1, 0 to 9007199254740992'
complete -c relayd -n '__relayd_command check route replay run restart' -l config -r -F -d 'The configuration file, with the section [relay]'
complete -c relayd -n '__relayd_command check route replay run restart' -l rules -r -F -d 'The relay rules; RELAY_METHOD = rules needs them'
complete -c relayd -n '__relayd_command check route replay run restart' -l rewrite -r -F -d 'The rewrite rules; without them no name changes'
complete -c relayd -n '__relayd_command check route replay run restart' -l longest-name -x -d 'Drops datapoints whose names have more than N characters, 1 to 4000'
complete -c relayd -n '__relayd_command check' -l spool -x -a '(__fish_complete_directories)' -d 'With --explain: the directory of run, whose files are looked at too'
complete -c relayd -n '__relayd_command check route replay run restart reload' -l explain -d 'Writes notes to standard error: where a fault is and how to cure it, or what may be a mistake'
complete -c relayd -n '__relayd_command check' -l strict -d 'With --explain: exits with status 1 if there is a note'
complete -c relayd -n '__relayd_command check' -l json -d 'With --explain: prints the notes, an object of JSON a line'
complete -c relayd -n '__relayd_command route' -l admin -x -d 'Asks the running relay with this admin port instead, 1 to 65535'
complete -c relayd -n '__relayd_command route run report watch stop restart reload' -l admin-key -r -F -d 'A file of mode 600 or 640 whose first line is the key of the admin port'
complete -c relayd -n '__relayd_command route' -l names -r -F -d 'A file of names, one per line, instead of NAME'
complete -c relayd -n '__relayd_command route replay' -l strict -d 'Exits with status 1 if a line or a name is bad, or a name is dropped or goes nowhere'
complete -c relayd -n '__relayd_command route report watch' -l json -d 'Prints an object of JSON a line'
complete -c relayd -n '__relayd_command replay' -l lines -r -F -d 'A file of datapoints, one per line, instead of SCRIPT'
complete -c relayd -n '__relayd_command replay' -l text -d 'Also shows as text what each destination got'
complete -c relayd -n '__relayd_command replay' -F
complete -c relayd -n '__relayd_command run' -l admin -x -d 'The port on 127.0.0.1 for route, report, watch, stop, restart and reload, 1 to 65535'
complete -c relayd -n '__relayd_command run' -l senders -x -a '1 2 3 4 5 6 7 8' -d 'The number of threads that send, 1 to 8'
complete -c relayd -n '__relayd_command run' -l line-receivers -x -a '1 2 3 4 5 6' -d 'The number of threads that receive lines, 1 to 6'
complete -c relayd -n '__relayd_command run' -l idle -x -d 'Closes a connection that sends no datapoint for SECONDS, 0 to 86400; 0 closes none'
complete -c relayd -n '__relayd_command run' -l drain -x -d 'After stop, keeps sending queued datapoints for at most SECONDS, 0 to 3600'
complete -c relayd -n '__relayd_command run' -l spool -x -a '(__fish_complete_directories)' -d 'After stop, keeps what was not sent in files in DIR, and sends them at the next start'
complete -c relayd -n '__relayd_command run' -l spool-size -x -d 'Keeps what queues cannot hold in DIR while it runs, in at most BYTES, 1048576 or more'
complete -c relayd -n '__relayd_command run' -l status -x -d 'Serves a status page, JSON and metrics over HTTP on this port, 1 to 65535'
complete -c relayd -n '__relayd_command run' -l status-interface -x -d 'The IP address that --status listens on; by default 127.0.0.1'
complete -c relayd -n '__relayd_command run' -l log -d 'Writes events to standard error: connections made and lost, drops, bad input'
complete -c relayd -n '__relayd_command run' -l log-format -x -a 'text timed json' -d 'Writes them as text, timed (with time and level), or json'
complete -c relayd -n '__relayd_command run' -l record -r -F -d 'After stop, writes the run to FILE as a script for replay'
complete -c relayd -n '__relayd_command report watch stop restart reload' -l admin -x -d 'The admin port of the relay, 1 to 65535'
complete -c relayd -n '__relayd_command watch' -l dest -x -d 'Shows only what goes to this destination, written as in DESTINATIONS'
complete -c relayd -n '__relayd_command watch' -l names -x -d 'Counts datapoints by the first N parts of their names, 1 to 64, and shows the greatest'
complete -c relayd -n '__relayd_command watch' -l lines -x -d 'Ends after N datapoints, or shows the N greatest (by default 20), 1 to 1000000'
complete -c relayd -n '__relayd_command watch' -l seconds -x -d 'Ends after SECONDS, 1 to 3600'
complete -c relayd -n '__relayd_command stop' -l wait -d 'Waits until the relay has ended'
