# fish completion for srcp_server, and for the programs beside it
complete -c srcp_server -f
complete -c srcp_server -n __fish_use_subcommand -a serve -d 'Serve throttles and panels on 127.0.0.1'
complete -c srcp_server -n __fish_use_subcommand -a check -d 'Read a configuration or a plan, and print what it says'
complete -c srcp_server -n __fish_use_subcommand -a mirror -d 'Print the rows that the lines of a panel tell of'
complete -c srcp_server -n __fish_use_subcommand -a interlock -d 'Set the routes of a plan'
complete -c srcp_server -n __fish_use_subcommand -a replay -d 'Run the script on standard input'
complete -c srcp_server -n __fish_use_subcommand -a help -d 'Print the help of a command'
complete -c srcp_server -n '__fish_seen_subcommand_from help' -a 'serve check mirror interlock replay'
complete -c srcp_server -n '__fish_seen_subcommand_from serve check replay' -l config -r -F -d 'The configuration'
complete -c srcp_server -n '__fish_seen_subcommand_from check interlock' -l plan -r -F -d 'The plan of a signal box'
complete -c srcp_server -n '__fish_seen_subcommand_from serve' -l turns -x -d 'End after N turns'
complete -c srcp_server -l help -d 'Print the help'
complete -c srcp_server -n __fish_use_subcommand -l version -d 'Print the version'
for program in srcp-box srcp-dcc-ex srcp-doctor srcp-guard srcp-keep srcp-lint srcp-log srcp-mqtt \
  srcp-panel srcp-program srcp-simulated-station srcp-simulated-z21 srcp-srcpd srcp-status \
  srcp-throttle srcp-web srcp-withrottle srcp-z21
  complete -c $program -a "($program --help 2> /dev/null | string match -ra -- '--[a-z][a-z-]*' | sort -u)"
end
