# bash completion for srcp_server, and for the programs beside it
_srcp_server() {
	local word=${COMP_WORDS[COMP_CWORD]} before=${COMP_WORDS[COMP_CWORD-1]} command=${COMP_WORDS[1]}
	case $before in
	--config | --plan) mapfile -t COMPREPLY < <(compgen -f -- "$word"); return ;;
	--turns) return ;;
	esac
	local words="--help --version"
	if [ "$COMP_CWORD" -eq 1 ]; then
		words="serve check mirror interlock replay help --help --version"
	else
		case $command in
		serve) words="--config --turns --help" ;;
		check) words="--config --plan --help" ;;
		replay) words="--config --help" ;;
		interlock) words="--plan --help" ;;
		mirror) words="--help" ;;
		help) words="serve check mirror interlock replay" ;;
		esac
	fi
	mapfile -t COMPREPLY < <(compgen -W "$words" -- "$word")
}
complete -o filenames -F _srcp_server srcp_server
_srcp_program() {
	local word=${COMP_WORDS[COMP_CWORD]}
	mapfile -t COMPREPLY < <(compgen -W "$("$1" --help 2> /dev/null | grep -o -- '--[a-z][a-z-]*' | sort -u)" -f -- "$word")
}
complete -o filenames -F _srcp_program srcp-box srcp-dcc-ex srcp-doctor srcp-guard srcp-keep \
	srcp-lint srcp-log srcp-mqtt srcp-panel srcp-program srcp-simulated-station srcp-simulated-z21 \
	srcp-srcpd srcp-status srcp-throttle srcp-web srcp-withrottle srcp-z21
