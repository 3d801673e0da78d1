#compdef srcp_server srcp-box srcp-dcc-ex srcp-doctor srcp-guard srcp-keep srcp-lint srcp-log srcp-mqtt srcp-panel srcp-program srcp-simulated-station srcp-simulated-z21 srcp-srcpd srcp-status srcp-throttle srcp-web srcp-withrottle srcp-z21
# zsh completion for srcp_server, and for the programs beside it
if [[ $service != srcp_server ]]; then
	_gnu_generic
	return
fi
local -a commands config plan
commands=(
	'serve:serves throttles and panels on 127.0.0.1'
	'check:reads a configuration or a plan, and prints what it says'
	'mirror:reads the lines that a panel was sent, and prints the rows'
	'interlock:sets the routes of a plan'
	'replay:runs the script on standard input'
	'help:prints the help of a command'
)
config=('--config[the configuration]:file:_files -g "*.toml"' '--help[prints the help]')
plan='--plan[the plan of a signal box]:file:_files -g "*.toml"'
if (( CURRENT == 2 )); then
	_describe command commands
	_arguments '--help[prints the help]' '--version[prints the version]'
	return
fi
case $words[2] in
serve) shift words; (( CURRENT-- )); _arguments $config '--turns[ends after N turns]:turns:' ;;
check) shift words; (( CURRENT-- )); _arguments $config $plan ;;
replay) shift words; (( CURRENT-- )); _arguments $config ;;
interlock) shift words; (( CURRENT-- )); _arguments $plan '--help[prints the help]' ;;
mirror) shift words; (( CURRENT-- )); _arguments '--help[prints the help]' ;;
help) _describe command commands ;;
esac
